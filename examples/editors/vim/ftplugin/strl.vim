" Two blanks for each construct that is open, as foldheron fmt has it; :make builds the block and goes to the fault.
if exists("b:did_ftplugin")
  finish
endif
let b:did_ftplugin = 1
setlocal expandtab shiftwidth=2 softtabstop=2 iskeyword=48-57,65-90,97-122
compiler foldheron
let b:undo_ftplugin = "setlocal expandtab< shiftwidth< softtabstop< iskeyword< makeprg< errorformat<"
