" The faults and warnings of filter equations, by tools/check of this repository: ':compiler silc' and then ':make'.
if exists('current_compiler')
  finish
endif
let current_compiler = 'silc'
let s:check = resolve(expand('<sfile>:p:h')) . '/../../../tools/check'
execute 'CompilerSet makeprg=' . escape(fnameescape(simplify(s:check)) . ' --all --warn %:S', ' \|"')
CompilerSet errorformat=%f:%l:%c-%*\\d:\ %tarning:\ %m,%f:%l:%c-%*\\d:\ %m
