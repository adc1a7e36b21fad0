" The places that `rsml explain` tells.
if exists("current_compiler")
  finish
endif
let current_compiler = "rsml"

CompilerSet makeprg=rsml\ explain\ %:S
" An entry with the word error or note, a member of a finding, and any other place.
CompilerSet errorformat=#\ %f:%l:%c:\ %trror:\ %m,
      \#\ %f:%l:%c:\ %tote:\ %m,
      \%I#\ %f:%l:%c:\ %\\%%(case\ %\\d%\\\|%\\S%\\+\ %\\d%\\+\ %\\%%(move%\\\|stay%\\)\ %\\)%\\@=%m,
      \#\ %f:%l:%c:\ %m,
      \%-G%.%#
