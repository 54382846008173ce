" Sequential Function Charts: `:compiler sfcmon`, then `:make` tells the first fault of the chart in the window, and
" `:make SCRIPT` that of a script over it. Put it into ~/.vim/compiler.
if exists("current_compiler")
  finish
endif
let current_compiler = "sfcmon"

CompilerSet makeprg=sfcmon\ why\ %:S
CompilerSet errorformat=%-G\ %#%*\\d\ \|\ %.%#,%f:%l:%c:\ %n\ %m,%f:%l:%c:\ %m,%-G%.%#
