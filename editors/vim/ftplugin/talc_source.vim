" Comments and faults of the source language of talc.
if exists("b:did_ftplugin")
  finish
endif
let b:did_ftplugin = 1
setlocal comments=:-- commentstring=--\ %s
compiler talc
let b:undo_ftplugin = 'setlocal comments< commentstring< makeprg< errorformat<'
