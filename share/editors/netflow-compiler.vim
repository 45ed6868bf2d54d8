" Runs netflow-explain by :make MODEL DATA, and jumps to the error.
if exists("current_compiler")
    finish
endif
let current_compiler = "netflow"
CompilerSet makeprg=netflow-explain\ $*
CompilerSet errorformat=%E%f:%l:%c:\ %m,%Z\ \ Hint:\ %m,%Z\ \ To\ fix:\ %m,%-C%.%#,%-G%.%#
