" Definitions and proofs in antt.
if exists('b:current_syntax')
  finish
endif
scriptencoding utf-8
syntax case match

" Where two items match at one place, Vim takes the later one.
syntax match anttName /\k\@1<![a-z_]\k*/
syntax match anttType /\k\@1<![A-Z]\k*/
syntax match anttNumber /\k\@1<!\d\+\k\@!/
syntax match anttOperator /[λ→×⊎≡≢≤<>¬⊥↔∷:=+*&|^-]/
syntax match anttBuiltIn /\k\@1<!Type\k\@!\|[ℕℤ]/
syntax match anttControl /\k\@1<!\%(as\|by\|else\|if\|in\|let\|of\|then\|where\|with\)\k\@!/
syntax match anttDeclaration /\k\@1<!\%(abbrev\|data\|module\|mod\|mutual\|opaque\|pub\|record\|unfoldable\|use\)\k\@!/
syntax region anttString start=/"/ skip=/\\./ end=/"/ oneline
syntax match anttComment /--.*/

highlight default link anttName Normal
highlight default link anttType Type
highlight default link anttNumber Number
highlight default link anttOperator Operator
highlight default link anttBuiltIn Constant
highlight default link anttControl Statement
highlight default link anttDeclaration Structure
highlight default link anttString String
highlight default link anttComment Comment

syntax sync minlines=1
let b:current_syntax = 'antt'
