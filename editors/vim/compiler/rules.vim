" Vim compiler for rule files of opa: after `:compiler rules`, `:make` lists the errors of the rulebase whose main file is open.
if exists("current_compiler")
  finish
endif
let current_compiler = "rules"

if exists(":CompilerSet") != 2
  command -nargs=* CompilerSet setlocal <args>
endif

CompilerSet makeprg=rules\ faults\ %:S
" The phrases of a circle and the line belong to the error above them, and the mark ends it.
CompilerSet errorformat=%-Z\ \ ^,%+C\ \ %.%#,%E%f:%l:%c:\ error:\ %m,%-G%.%#
