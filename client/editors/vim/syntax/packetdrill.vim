" Colours for scripts of packetdrill, by the tokens of docs/SCRIPTS.md.
if exists('b:current_syntax')
  finish
endif
syntax case match
syntax iskeyword @,48-57,_

syntax keyword packetdrillCall socket bind listen accept setsockopt fcntl write close contained
syntax match packetdrillCall "\<\h\w*\ze("
syntax keyword packetdrillError EAGAIN EINVAL EPIPE EBADF
syntax keyword packetdrillName SOCK_STREAM IPPROTO_TCP SOL_SOCKET SOL_TCP SO_REUSEADDR TCP_NODELAY F_SETFL
syntax keyword packetdrillField ack win
syntax keyword packetdrillOption mss wscale sackOK sack nop eol TS val ecr contained
syntax match packetdrillNumber "\<\%(0x\x\+\|\d\+\)\>"
syntax match packetdrillTime "\%(^\s*\)\@<=+\?\d*\.\?\d\+\%(\~+\?\d*\.\?\d\+\)\?\ze\s"
syntax match packetdrillTime "\%(^\s*\)\@<=\*\ze\s"
syntax match packetdrillDots "\.\.\."
syntax match packetdrillIn "<\ze\s\+[FSRPUEWC.-]" nextgroup=packetdrillFlags skipwhite
syntax match packetdrillOut ">\ze\s\+[FSRPUEWC.-]" nextgroup=packetdrillFlags skipwhite
syntax match packetdrillFlags "[FSRPUEWC]\+\.\?\|\.\|-" contained
syntax region packetdrillOptions start="<\ze\%(mss\|wscale\|sackOK\|sack\|nop\|eol\|TS\|\.\.\.\|>\)" end=">" oneline contains=packetdrillOption,packetdrillNumber,packetdrillDots
syntax match packetdrillHeader "^\s*--\h\w*\%(=\S*\)\?"
syntax region packetdrillString start=+"+ skip=+\\.+ end=+"+
syntax region packetdrillCommand start="`" end="`"
syntax region packetdrillCode start="%{" end="}%"
syntax keyword packetdrillTodo TODO FIXME XXX contained
syntax match packetdrillComment "//.*$" contains=packetdrillTodo,@Spell
syntax region packetdrillComment start="/\*" end="\*/" contains=packetdrillTodo,@Spell

highlight default link packetdrillCall Function
highlight default link packetdrillError Constant
highlight default link packetdrillName Constant
highlight default link packetdrillField Keyword
highlight default link packetdrillOption Identifier
highlight default link packetdrillNumber Number
highlight default link packetdrillTime Special
highlight default link packetdrillDots Delimiter
highlight default link packetdrillIn Operator
highlight default link packetdrillOut Statement
highlight default link packetdrillFlags Type
highlight default link packetdrillHeader PreProc
highlight default link packetdrillString String
highlight default link packetdrillCommand PreProc
highlight default link packetdrillCode PreProc
highlight default link packetdrillTodo Todo
highlight default link packetdrillComment Comment
let b:current_syntax = 'packetdrill'
