" Blocks as kernel text: version, inputs and outputs, and one statement. What is no token is shown as an error while it is typed.
if exists("b:current_syntax")
  finish
endif
syntax case match

syntax keyword strlStatement nothing pause emit exit
syntax keyword strlTest present then else suspend when
syntax keyword strlRepeat loop
syntax keyword strlScope trap signal in
syntax keyword strlEnd end
syntax keyword strlHeader version input output

" The first of these that fits is a word too long, one that begins with a digit, or a byte of no token; the keywords above come before all of them.
syntax match strlName /\<\a[A-Za-z0-9]\{0,15}\>/
syntax match strlNumber /\<\d\{1,5}\>/
syntax match strlNoToken /[^A-Za-z0-9;,|\[\] \t\r]/
syntax match strlNoToken /|\@1<!||\@!/
syntax match strlNoToken /\<\a[A-Za-z0-9]\{16,}/
syntax match strlNoToken /\<\d[A-Za-z0-9]*\a[A-Za-z0-9]*/
syntax match strlNoToken /\<\d\{6,}\>/
syntax match strlMark /||\|[;,\[\]]/

highlight default link strlStatement Statement
highlight default link strlTest Conditional
highlight default link strlRepeat Repeat
highlight default link strlScope StorageClass
highlight default link strlEnd Keyword
highlight default link strlHeader PreProc
highlight default link strlName Identifier
highlight default link strlNumber Number
highlight default link strlMark Operator
highlight default link strlNoToken Error

let b:current_syntax = "strl"
