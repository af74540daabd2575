" Vim compiler of gravitar: `:compiler gravitar`, then `:make` assembles NAME.s and NAME.v into NAME.img, from either of
" them, and goes to the line of a refusal. docs/COMMANDS.md
if exists("current_compiler")
    finish
endif
let current_compiler = "gravitar"
let s:cpo = &cpo
set cpo&vim
CompilerSet makeprg=gravitar\ asm\ %:r:S.s\ %:r:S.v\ %:r:S.img
" The listing isn't a list of errors.
CompilerSet errorformat=gravitar:\ %f:\ line\ %l:\ %m,%-G%.%#
let &cpo = s:cpo
unlet s:cpo
