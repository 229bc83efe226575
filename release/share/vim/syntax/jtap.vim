" Vim syntax file. Language: scripts of jtap (docs/LANGUAGE.md).
if exists("b:current_syntax")
  finish
endif

syntax case match
syntax keyword jtapStructure team class test static field let
syntax keyword jtapBlock before_all after_all before_each after_each
syntax keyword jtapMark same_thread concurrent isolated read write children disabled
syntax keyword jtapStatement print fail set_prop clear_prop set_locale write_file append_file delete_file
syntax keyword jtapAssertion assert assert_equal assume
syntax keyword jtapConditional if else
syntax keyword jtapRepeat repeat
syntax keyword jtapFunction text len prop has_prop locale file has_file
syntax keyword jtapBoolean true false
syntax match jtapNumber "\<\d\+\>"
syntax match jtapName "\%(\<\%(team\|class\|test\)\s\+\)\@<=\a\w*"
syntax match jtapOperator "[-+*=<]\|!="
syntax match jtapWrong +[^\x09\x0d\x20-\x7e]\|["\\>&|/%'`@#$?:.[\]^~]\|!=\@!\|\<_\w*\|\<\d\+\h\w*+
syntax match jtapComment "//.*$" contains=jtapTodo,jtapWrongByte
syntax region jtapText start=+"+ skip=+\\.+ end=+"+ oneline contains=jtapEscape,jtapWrongEscape,jtapWrongTextByte
syntax match jtapEscape +\\["\\]+ contained
syntax match jtapWrongEscape +\\[^"\\]+ contained
syntax match jtapWrongByte "[^\x09\x0d\x20-\x7e]" contained
syntax match jtapWrongTextByte "[^\x20-\x7e]" contained
syntax keyword jtapTodo TODO FIXME XXX contained

highlight default link jtapStructure Keyword
highlight default link jtapBlock PreProc
highlight default link jtapMark StorageClass
highlight default link jtapStatement Statement
highlight default link jtapAssertion Statement
highlight default link jtapConditional Conditional
highlight default link jtapRepeat Repeat
highlight default link jtapFunction Function
highlight default link jtapBoolean Boolean
highlight default link jtapNumber Number
highlight default link jtapName Type
highlight default link jtapOperator Operator
highlight default link jtapComment Comment
highlight default link jtapText String
highlight default link jtapEscape SpecialChar
highlight default link jtapTodo Todo
highlight default link jtapWrong Error
highlight default link jtapWrongByte Error
highlight default link jtapWrongTextByte Error
highlight default link jtapWrongEscape Error

let b:current_syntax = "jtap"
