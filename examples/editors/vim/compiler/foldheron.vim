" FILE:LINE:COLUMN: NUMBER NAME: what is wrong; the lines below it, which are indented, show the place again.
if exists("current_compiler")
  finish
endif
let current_compiler = "foldheron"
CompilerSet makeprg=foldheron\ build\ %:S
CompilerSet errorformat=%E%f:%l:%c:\ %n\ %m,%-C\ \ %.%#,%-G%.%#
