" Runs the script of the buffer by :make, and lists where it fails.
if exists('current_compiler')
  finish
endif
let current_compiler = 'pdsuite'
if exists(':CompilerSet') != 2
  command -nargs=* CompilerSet setlocal <args>
endif
CompilerSet makeprg=pdsuite\ run\ --no-color\ %:S
CompilerSet errorformat=%f:%l:\ %m,%-G%.%#
