" Compiler for scripts of liq: `:compiler liq`, then `:make` looks at the text of this file, and `:cnext` goes to its fault.
if exists("current_compiler")
  finish
endif
let current_compiler = "liq"
if exists(":CompilerSet") != 2
  command -nargs=* CompilerSet setlocal <args>
endif
CompilerSet makeprg=liq-where\ --lines\ --text\ %:S
CompilerSet errorformat=%f:%l:%c-%k:\ %trror\ E%n:\ %m,%f:%l:%c-%k:\ %tarning\ %*[^:]:\ %m
