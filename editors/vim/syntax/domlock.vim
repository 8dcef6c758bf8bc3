" Colours for modules of domlock (docs/LANGUAGE.md).
if exists("b:current_syntax")
  finish
endif
setlocal commentstring=#\ %s iskeyword=@,48-57,_ shiftwidth=2 expandtab

syntax match domlockName "\<[A-Za-z_][A-Za-z0-9_]*\>"
syntax keyword domlockHead domlock
syntax keyword domlockDeclaration root node op var allocs fuel
syntax keyword domlockStatement if else while return
" In a text of version 2 emit begins a statement; in one of version 1 it is a name.
if search('^\s*domlock\s\+2\>', 'cnw')
  syntax keyword domlockStatement emit
endif
syntax keyword domlockOperator new
syntax keyword domlockType int
syntax keyword domlockConstant null
syntax match domlockNumber "\<[0-9]\+\>"
syntax match domlockSymbol "<=\|==\|!=\|[-+*/%<=]"
syntax match domlockWrong "[^ \t\r{}(),:;=.+*/%<#A-Za-z0-9_-]"
syntax match domlockRelation "!="
syntax match domlockComment "#.*$" contains=domlockTodo,domlockByte
syntax keyword domlockTodo TODO FIXME contained
syntax match domlockByte "[^\x00-\x7f]" contained

highlight default link domlockHead PreProc
highlight default link domlockDeclaration Structure
highlight default link domlockStatement Statement
highlight default link domlockOperator Operator
highlight default link domlockType Type
highlight default link domlockConstant Constant
highlight default link domlockNumber Number
highlight default link domlockSymbol Operator
highlight default link domlockRelation Operator
highlight default link domlockWrong Error
highlight default link domlockByte Error
highlight default link domlockComment Comment
highlight default link domlockTodo Todo

let b:current_syntax = "domlock"
