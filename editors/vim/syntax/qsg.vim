" Vim syntax file of the scripts of qsg.
if exists("b:current_syntax")
  finish
endif

syntax case ignore

" A line that begins with an asterisk is a comment.
syntax match qsgComment "^\*.*$"

" What the group is made of, and where sections begin.
syntax keyword qsgStatement GROUP MEMBER DEFINE DEF FACILITY TASK SCHEDULE END
syntax keyword qsgObject CFSTRUCT QLOCAL QL CFSTATUS QUEUE

" What tasks and the operator do.
syntax keyword qsgDirective PUT GET COMMIT BACKOUT WAIT BACKUP RECOVER RESET DISPLAY
syntax keyword qsgDirective OPERATOR CRASH START STOP LOSE

syntax keyword qsgKeyword LOG PICK ELEMENTS BLOCKS BODY HEX SIZE PRI PERS MSGID CORRELID
syntax keyword qsgKeyword CFLEVEL OFFLOAD DSGROUP OFFLD1TH OFFLD2TH OFFLD3TH OFFLD1SZ OFFLD2SZ OFFLD3SZ
syntax keyword qsgKeyword DSBLOCK DSBUFS DSEXPAND DESCR QSGDISP DEFPRTY DEFPSIST MSGDLVSQ MAXDEPTH MAXMSGL
syntax keyword qsgKeyword SHARE NOREPLACE DEFSOPT EXCLINT TYPE SMDS ACCESS STATUS

syntax keyword qsgValue SHARED ENABLED DISABLED YES NO PRIORITY FIFO NORMAL PURGE FAILED RECOVERED

syntax match qsgNumber "\<\d\+[KkMm]\?\>"
syntax region qsgText start=+'+ skip=+''+ end=+'+ oneline
syntax match qsgContinued "[+-]\s*$"

highlight default link qsgComment Comment
highlight default link qsgStatement Statement
highlight default link qsgObject Type
highlight default link qsgDirective Function
highlight default link qsgKeyword Identifier
highlight default link qsgValue Constant
highlight default link qsgNumber Number
highlight default link qsgText String
highlight default link qsgContinued Special

let b:current_syntax = "qsg"
