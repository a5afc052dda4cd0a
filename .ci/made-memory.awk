# Prints each line of a .rt file on which want of memory is made: `NoMemory`, a variant of that name, an allocator's
# answer (`AllocError`, `AllocFailed`) as a value, or the status of a program that it ends (`OutOfMemory`).
#
# Not printed: their names where they are a type or a pattern (an import, a parameter, a result, an argument of a type,
# the head of an impl, the declaration of a struct or an enum, the left side of an arm or of a let), in clauses, other
# ghost text, strings and comments, and where want of memory is handed on (a variant that is made in
# `fn from(_: NoMemory)`, or in an arm whose pattern is one).

function depth_of(text,  opened) {
  opened = gsub(/\{/, "", text)
  return opened - gsub(/\}/, "", text)
}

FNR == 1 { depth = 0; type_at = from_at = ghost_at = -1 }

{
  code = $0
  gsub(/'([^'\\]|\\.|\\u\{[^}]*\})'/, "", code)
  gsub(/"([^"\\]|\\.)*"/, "\"\"", code)
  sub(/\/\/.*/, "", code)
  if (ghost_at < 0 && code ~ /^[ \t]*(pub )?(ghost|requires\*?|ensures\*?)[ \t]/) ghost_at = depth
  if (type_at < 0 && code ~ /^[ \t]*(pub(\([a-z]+\))? )?(enum|struct) /) type_at = depth
  if (code ~ /fn from\([a-z_]+: NoMemory\)/) from_at = depth

  line = ghost_at >= 0 || type_at >= 0 || code ~ /^[ \t]*(pub(\([a-z]+\))? )?use / ? "" : code
  name = "(NoMemory|AllocError|AllocFailed|OutOfMemory)"
  if (from_at >= 0 && depth == from_at + 1) sub(/[A-Za-z]+::NoMemory/, "", line)
  if (line ~ /(^|[ \t])fn /) gsub(": " name "[,)]", "", line)
  if (line ~ /(^|[ \t])impl[ <]/) gsub(" for " name "( |$)", "", line)
  if (line ~ /(^|[ \t(])[A-Za-z_:]+::NoMemory(\([a-z]+\))?\)* =>/) sub(/=>.*[A-Za-z]+::(NoMemory|OutOfMemory)/, "=>", line)
  sub(/^.*=>/, "=>", line)
  sub("let [^=]*" name "[^=]*=", "let =", line)
  gsub("(-> |, |<)" name "(<[A-Za-z]+>)?(>| \\{|$)", "", line)

  if (line ~ "(^|[^A-Za-z0-9_])" name "([^A-Za-z0-9_]|$)") print FILENAME ":" FNR ":" $0

  depth += depth_of(code)
  if (depth <= type_at) type_at = -1
  if (depth <= from_at) from_at = -1
  if (depth <= ghost_at) ghost_at = -1
}
