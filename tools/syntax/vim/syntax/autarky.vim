" Scripts and reports of autarky.
if exists("b:current_syntax")
  finish
endif

syntax case match
syntax match autarkyComment "^\s*#.*$"
syntax match autarkyHead "^autarky 1$"
syntax match autarkyRest "^\(output\|event\|stop\)\>" nextgroup=autarkyEvent skipwhite
syntax keyword autarkyEvent contained call miss trap break none unmapped runtime fetch resumed stuck
syntax keyword autarkyBlame blame read write exec

syntax cluster autarkyMove contains=autarkyTable,autarkyLeaf,autarkyEntry,autarkyKernel
syntax keyword autarkyTable setpte readpte
syntax keyword autarkyLeaf eblock etrack ewb eldu eldb eremove epa drop
syntax keyword autarkyEntry eenter eresume run interrupt
syntax keyword autarkyKernel auto input

syntax match autarkyFlags "\<p\?w\?x\?a\?d\?\>\(\s*\(->\|$\)\)\@="
syntax match autarkyFlags "\s\zs-\(\s*\(->\|$\)\)\@="
syntax match autarkyNumber "\<\(0\|[1-9]\d*\)\>"
syntax match autarkyPlace "^\d\+ " nextgroup=@autarkyMove
syntax match autarkyArrow " -> " nextgroup=autarkyAnswer,autarkyRefusal,autarkyFault
syntax keyword autarkyAnswer contained ok handle pte in call ask ready nothing ended
syntax keyword autarkyFault contained pf vector stopped trapped
syntax keyword autarkyRefusal contained nopage notepc issecs free wrongtype inuse blocked notblocked nottracked previncomplete badva
syntax keyword autarkyRefusal contained slotoccupied slotempty macfail enclaveactive nohandle nolp inside outside tcsfault busy gp pending ssafault

highlight default link autarkyComment Comment
highlight default link autarkyHead PreProc
highlight default link autarkyPlace LineNr
highlight default link autarkyRest PreProc
highlight default link autarkyEvent Identifier
highlight default link autarkyBlame Identifier
highlight default link autarkyTable Statement
highlight default link autarkyLeaf Function
highlight default link autarkyEntry Keyword
highlight default link autarkyKernel Macro
highlight default link autarkyFlags Constant
highlight default link autarkyNumber Number
highlight default link autarkyArrow Delimiter
highlight default link autarkyAnswer Type
highlight default link autarkyFault Error
highlight default link autarkyRefusal WarningMsg

let b:current_syntax = "autarky"
