" `:make` lists the messages of the score. Columns count characters, and vim counts a tab as several.
if exists('current_compiler')
  finish
endif
let current_compiler = 'gregorio-chant'

CompilerSet makeprg=gregorio-chant\ check\ --quiet\ --output-format\ lines\ %:S
CompilerSet errorformat=%f:%l:%v:\ %tarning:\ %m,%f:%l:%v:\ %trror:\ %m,%f:%l:%v:\ fatal:\ %m
