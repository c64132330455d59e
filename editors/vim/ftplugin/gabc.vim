" Settings of chant scores in GABC.
if exists('b:did_ftplugin')
  finish
endif
let b:did_ftplugin = 1

setlocal commentstring=%\ %s comments=:% formatoptions-=t matchpairs+=<:>
compiler gregorio-chant
let b:undo_ftplugin = 'setlocal commentstring< comments< formatoptions< matchpairs< makeprg< errorformat<'
