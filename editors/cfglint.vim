" Vim's compiler plugin for cfglint: ~/.vim/compiler/cfglint.vim
if exists("current_compiler")
  finish
endif
let current_compiler = "cfglint"
CompilerSet makeprg=cfglint\ --quiet\ --columns\ bytes\ --\ %:S
CompilerSet errorformat=%f:%l:%c:\ %trror:\ %m,%f:%l:%c:\ %tarning:\ %m,%f:%l:%c:\ %tote:\ %m,%-G%.%#
