" Vim syntax file for scripts of pse52 (*.task).
" editors/README.md says how to install it.
if exists('b:current_syntax')
  finish
endif

syntax case match
syntax match pse52Comment /#.*$/ contains=@Spell
syntax match pse52Number /\<\d\+\>/
syntax match pse52Signal /\<rt\%([0-9]\|[12][0-9]\|3[01]\)\>/
" Words of these two lines that are steps at the beginning of one.
syntax match pse52Word /\%(^\s*action\s\+\S\+\s\+\)\@<=run\>/
syntax match pse52Word /\<set\>/
syntax match pse52Declaration /^\s*\zs\%(version\|quantum\|thread\|handler\|cleanup\|mutex\|cond\|sem\|queue\|timer\|action\)\>/
syntax match pse52Block /^\s*\zs\%(if\|unless\|loop\|forever\|push\|pop\|end\)\>/
syntax match pse52Step /^\s*\zs\%(run\|set\|add\|take\)\>/
syntax match pse52Call /^\s*\zs\%(yield\|create\|join\|exit\|cancel\|testcancel\|setcancel\|setprio\|setsched\)\>/
syntax match pse52Call /^\s*\zs\%(lock\|timedlock\|trylock\|unlock\|wait\|timedwait\|signal\|broadcast\)\>/
syntax match pse52Call /^\s*\zs\%(sem_wait\|sem_timedwait\|sem_trywait\|sem_getvalue\|sem_post\)\>/
syntax match pse52Call /^\s*\zs\%(nanosleep\|clock_nanosleep\|gettime\|clock_settime\|real_gettime\|timer_settime\|timer_gettime\|timer_getoverrun\)\>/
syntax match pse52Call /^\s*\zs\%(kill\|tkill\|sigqueue\|sigmask\|sigwaitinfo\|sigtimedwait\)\>/
syntax match pse52Call /^\s*\zs\%(mq_send\|mq_timedsend\|mq_receive\|mq_timedreceive\|mq_notify\)\>/
syntax keyword pse52Word fifo rr sporadic strict at dormant none inherit protect recursive nonblock ignore rel abs real all reg enable disable block unblock
syntax keyword pse52Result EAGAIN EBUSY EDEADLK EINTR EINVAL EMSGSIZE EOVERFLOW EPERM ESRCH ETIMEDOUT

highlight default link pse52Comment Comment
highlight default link pse52Number Number
highlight default link pse52Signal Identifier
highlight default link pse52Declaration Type
highlight default link pse52Block Statement
highlight default link pse52Step Function
highlight default link pse52Call Function
highlight default link pse52Word Keyword
highlight default link pse52Result Constant

let b:current_syntax = 'pse52'
