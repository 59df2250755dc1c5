" Lustre programs, as lusdist reads them: comments, brackets, and `:make`.
if exists('b:did_ftplugin')
  finish
endif
let b:did_ftplugin = 1

setlocal comments=:-- commentstring=--\ %s
setlocal matchpairs=(:) formatoptions-=t formatoptions+=croql
setlocal expandtab shiftwidth=2 softtabstop=2

" `:make` judges the program and lists all faults of the first stage that has any, and all warnings, each with its place.
setlocal makeprg=(lusdist\ check\ --all\ --short\ --warn\ %:S\ >\ /dev/null)
setlocal errorformat=%f:%l:%c:\ %t%n\ %m,%f:\ %t%n\ %m,%-G%*\\d\ fault%.%#,%m

let b:undo_ftplugin = 'setlocal comments< commentstring< matchpairs< formatoptions< expandtab< shiftwidth< softtabstop< makeprg< errorformat<'
