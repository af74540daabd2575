" Vim syntax of gravitar's tapes: a line that isn't of the format is an error. docs/FORMATS.md
if exists("b:current_syntax")
    finish
endif
syn match tapeError ".*"
syn match tapeLine "^\d\{1,15} \(IN[034]\|[PQ][0-7]\) \x\x$" contains=tapeClock,tapePort,tapeByte
syn match tapeEnd "^\d\{1,15} END$" contains=tapeClock
syn match tapeClock "^\d\+" contained
syn match tapePort " \zs\(IN[034]\|[PQ][0-7]\)\ze " contained
syn match tapeByte "\x\x$" contained
hi def link tapeError Error
hi def link tapeEnd Statement
hi def link tapeClock Number
hi def link tapePort Identifier
hi def link tapeByte Constant
let b:current_syntax = "gravitar_tape"
