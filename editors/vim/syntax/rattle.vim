" Sources in Rattle: Rust, with clauses and ghost imports in antt.
if exists('b:current_syntax')
  finish
endif
syntax include @antt syntax/antt.vim
unlet! b:current_syntax
syntax case match

" Where two items match at one place, Vim takes the later one.
syntax match rattleType /\<\u\w*\>/
syntax match rattleFunction /\<[a-z_]\w*\ze(/
syntax match rattleMacro /\<[a-z_]\w*!/
syntax match rattleNumber /\<\d[0-9_]*\%([ui]\%(8\|16\|32\|64\|128\|size\)\)\?\>/
syntax keyword rattleBuiltIn bool char str u8 u16 u32 u64 u128 usize i8 i16 i32 i64 i128 isize
syntax keyword rattleSelf self Self
syntax keyword rattleBoolean true false
syntax keyword rattleControl break continue else for if in loop match return while
syntax keyword rattleKeyword as const crate dyn enum extern fn impl let mod move mut pub ref static struct super trait type unsafe use where
syntax match rattleLifetime /'[a-z_]\w*/
syntax match rattleString /b\?'\%([^'\\]\|\\[^']\)'\|b\?'\\''/
syntax region rattleString start=/b\?"/ skip=/\\./ end=/"/
syntax match rattleAttribute /#!\?\[[^\]]*\]/

" A clause has its braces, and a ghost import goes on to its semicolon.
syntax region rattleBraces matchgroup=rattleDelimiter start=/{/ end=/}/ contained contains=@antt,rattleBraces
syntax region rattleClause matchgroup=rattleContract start=/\<\%(requires\|ensures\)\>[^{]*{/ end=/}/ contains=@antt,rattleBraces
syntax region rattleGhost matchgroup=rattleContract start=/\<ghost\>/ end=/\ze;/ contains=@antt
syntax match rattleComment /\/\/.*/
syntax region rattleComment start=/\/\*/ end=/\*\//

highlight default link rattleType Type
highlight default link rattleFunction Function
highlight default link rattleMacro Macro
highlight default link rattleNumber Number
highlight default link rattleBuiltIn Type
highlight default link rattleSelf Constant
highlight default link rattleBoolean Boolean
highlight default link rattleControl Statement
highlight default link rattleKeyword Keyword
highlight default link rattleLifetime Special
highlight default link rattleString String
highlight default link rattleAttribute PreProc
highlight default link rattleContract PreProc
highlight default link rattleComment Comment

syntax sync minlines=200
let b:current_syntax = 'rattle'
