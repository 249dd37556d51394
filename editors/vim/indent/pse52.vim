" Vim indentation for scripts of pse52: what stands in a block is indented by one step more.
if exists('b:did_indent')
  finish
endif
let b:did_indent = 1

setlocal indentexpr=Pse52Indent(v:lnum)
setlocal indentkeys=o,O,0=end,0=pop,!^F
let b:undo_indent = 'setlocal indentexpr< indentkeys<'

if exists('*Pse52Indent')
  finish
endif

function Pse52Indent(line)
  if getline(a:line) =~# '^\s*\%(thread\|handler\|cleanup\|mutex\|cond\|sem\|queue\|timer\|action\|quantum\)\>'
    return 0
  endif
  let above = prevnonblank(a:line - 1)
  if above == 0
    return 0
  endif
  let opens = getline(above) =~# '^\s*\%(thread\|handler\|cleanup\|if\|unless\|loop\|forever\|push\)\>'
  let closes = getline(a:line) =~# '^\s*\%(end\|pop\)\>'
  return max([0, indent(above) + shiftwidth() * (opens - closes)])
endfunction
