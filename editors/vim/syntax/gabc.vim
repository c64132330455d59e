" Colours of chant scores in GABC. What stands between two | in notes is taken for a line of NABC.
if exists('b:current_syntax')
  finish
endif

syntax region gabcHeaders start=/\%^/ end=/^%%.*$/ keepend contains=gabcHeaderName,gabcHeaderComment,gabcHeaderEnd
syntax match gabcHeaderName /^[^:%;]\+\ze:/ contained
syntax match gabcHeaderComment /^\s*%.*$/ contained
syntax match gabcHeaderComment /;\s*\zs%.*$/ contained
syntax match gabcHeaderEnd /^%%/ contained

syntax match gabcComment /%.*$/
syntax match gabcEscape /\$[][(){}<>%$]/
syntax match gabcTag /<\/\?\a\+>/
syntax region gabcRaw matchgroup=gabcTag start=/<v>/ end=/<\/v>/
syntax region gabcRaw matchgroup=gabcTag start=/<alt>/ end=/<\/alt>/
syntax region gabcSpecial matchgroup=gabcTag start=/<sp>/ end=/<\/sp>/
syntax region gabcTranslation start=/\[/ end=/\]/
syntax match gabcCentre /[{}]/

syntax region gabcNotes matchgroup=gabcBracket start=/(/ end=/)/ contains=gabcComment,gabcClef,gabcBar,gabcNote,gabcAttribute,gabcNabc
syntax match gabcNote /-\?[a-npA-NP][vVsoOwWqrR=~<>.'_0-9]*/ contained
syntax match gabcClef /[cf]b\?[1-5]\(@[cf]b\?[1-5]\)\?/ contained
syntax match gabcBar /[`^,;:]\+/ contained
syntax region gabcAttribute start=/\[/ end=/\]/ contained
syntax region gabcNabc matchgroup=gabcBracket start=/|/ end=/|/ end=/\ze)/ contained contains=gabcComment

highlight default link gabcHeaderName Identifier
highlight default link gabcHeaderComment Comment
highlight default link gabcHeaderEnd PreProc
highlight default link gabcComment Comment
highlight default link gabcEscape SpecialChar
highlight default link gabcTag Statement
highlight default link gabcRaw Special
highlight default link gabcSpecial SpecialChar
highlight default link gabcTranslation String
highlight default link gabcCentre Delimiter
highlight default link gabcBracket Delimiter
highlight default link gabcNote Constant
highlight default link gabcClef Type
highlight default link gabcBar Operator
highlight default link gabcAttribute PreProc
highlight default link gabcNabc Function

let b:current_syntax = 'gabc'
