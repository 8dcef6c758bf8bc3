" Colours for operation files of domlock (docs/LANGUAGE.md): a name, then numbers.
if exists("b:current_syntax")
  finish
endif
setlocal commentstring=#\ %s

syntax match domlockopsName "^[ \t]*\zs[^ \t\r#]\+" nextgroup=domlockopsArgument skipwhite
syntax match domlockopsArgument "[^ \t\r#]\+" contained nextgroup=domlockopsArgument skipwhite contains=domlockopsNumber
syntax match domlockopsNumber "\%(^\|\s\)\@<=-\?[0-9]\+\%($\|[ \t\r#]\)\@=" contained
syntax match domlockopsComment "#.*$" contains=domlockopsByte
syntax match domlockopsByte "[^\x00-\x7f]" contained

highlight default link domlockopsName Function
highlight default link domlockopsArgument Error
highlight default link domlockopsNumber Number
highlight default link domlockopsByte Error
highlight default link domlockopsComment Comment

let b:current_syntax = "domlockops"
