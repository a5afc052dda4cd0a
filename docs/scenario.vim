" Vim syntax of scenarios; docs/scenario.5.md has the language.
" Copy it to ~/.vim/syntax/scenario.vim, and say `:set syntax=scenario`.

if exists("b:current_syntax")
  finish
endif

syn case match
syn iskeyword @,48-57,_,-

" a comment is a line of its own
syn match scenarioComment "^[ \t,]*#.*$"

" strings with their escapes
syn match scenarioEscape "\\[n\\\"]\|\\x\x\x" contained
syn region scenarioText start=+"+ skip=+\\.+ end=+"+ oneline contains=scenarioEscape

" numbers, and runs of hex digits
syn match scenarioNumber "\<\%(0x\x\+\|\d\+\)\>"
syn match scenarioHex "\<\x\{16,}\>"

" lines of a scenario, and those that begin and end a block
syn match scenarioLine "^[ \t,]*\%(turns\|file\|program\|script\|end\|truss\|tool\|schedule\|text\|space\)\>"
syn match scenarioSpawn "^[ \t,]*spawn\>"

" a label, alone on its line
syn match scenarioLabel "^[ \t,]*\a[A-Za-z0-9_.-]*:[ \t,]*$"

" instructions, and the registers
syn keyword scenarioInstruction bpt nop set mov add sub mul div ld st ldb stb jmp jz jnz jlt call ret sys
syn match scenarioRegister "\<r[0-7]\>"

" calls of a script; the first words of its lines
syn match scenarioCall "^[ \t,]*\%(open\|close\|read\|poll\|write\|interrupt\|kill\|until\|list\)\>"

" messages, after `write V`; `read`, `write` and `kill` are messages there, and calls elsewhere
syn match scenarioMessage "\%(^[ \t,]*write[ \t,]\+[^ \t,]\+[ \t,].*\)\@<=\<\%(read\|write\|kill\)\>"
syn keyword scenarioMessage stop dstop wstop csig cfault twstop ssig unkill svaddr run shold strace sfault sentry sexit
syn keyword scenarioMessage unset sreg agent watch raw prcsig prcfault prstep prsabort prstop held

" files, tools
syn keyword scenarioFile ctl status lstatus psinfo map usage as sigact fds lwpctl lwpstatus
syn keyword scenarioTool pflags psig pstack pmap pfiles ptree pstop prun pwait gcore apfiles

hi def link scenarioComment Comment
hi def link scenarioText String
hi def link scenarioEscape SpecialChar
hi def link scenarioNumber Number
hi def link scenarioHex Number
hi def link scenarioLine Keyword
hi def link scenarioSpawn Keyword
hi def link scenarioLabel Label
hi def link scenarioInstruction Statement
hi def link scenarioRegister Identifier
hi def link scenarioCall Statement
hi def link scenarioMessage Function
hi def link scenarioFile Type
hi def link scenarioTool Type

let b:current_syntax = "scenario"
