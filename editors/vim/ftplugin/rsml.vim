" Comments and `:make` of RSML requirements.
if exists("b:did_ftplugin")
  finish
endif
let b:did_ftplugin = 1

setlocal comments=:# commentstring=#\ %s
compiler rsml

let b:undo_ftplugin = "setlocal comments< commentstring< makeprg< errorformat<"
