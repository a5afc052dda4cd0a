# Prints each name of the first tables of docs/DEFINITIONS.md that no file of its row defines. The tables have names in
# the second column and their files, `crate File`, in the third; the index of files that ends the page has no names. Read
# docs/DEFINITIONS.md first, and then the files.

FNR == 1 {
  document = FILENAME ~ /DEFINITIONS\.md$/
  file = FILENAME
  sub(/^crates\//, "", file)
  sub(/\/specs\//, " ", file)
  sub(/\.antt$/, "", file)
}

document && /^## / { is_index = /^## Every file/ }

document && /^\| / && !is_index {
  if (split($0, column, " \\| ") < 4 || column[1] == "| Definition") next
  names = split(column[2], part, "`")
  files = split(column[3], of, ", ")
  for (n = 2; n < names; n += 2) {
    row = ++rows
    name[row] = part[n]
    for (f = 1; f <= files; f++) candidates[row] = candidates[row] "," of[f]
  }
}

document { next }

{ line = $0; sub(/^ +/, "", line) }

line ~ /^(abbrev |unfoldable )?pub / && line !~ /^(abbrev |unfoldable )?pub (mod|ruleset|use) / {
  sub(/^(abbrev |unfoldable )?pub (record |data )?/, "", line)
  sub(/[ :({].*/, "", line)
  defined[file, line] = 1
}

# the constructors of a `data`
line ~ /^[a-z_]+ :/ { sub(/ .*/, "", line); defined[file, line] = 1 }

END {
  for (row = 1; row <= rows; row++) {
    found = 0
    files = split(substr(candidates[row], 2), of, ",")
    for (f = 1; f <= files; f++) if ((of[f], name[row]) in defined) found = 1
    if (!found) print candidates[row] ": no " name[row]
  }
}
