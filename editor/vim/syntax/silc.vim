" Filter equations of silc.
if exists('b:current_syntax')
  finish
endif

syntax keyword silcStructure func const var
syntax keyword silcKeyword begin end if fi
syntax keyword silcType fix bool
syntax keyword silcMode trunc round sat
syntax keyword silcBoolean true false
syntax keyword silcReserved down up

" The head of a source that is to be linked.
syntax match silcHead '^\s*\%(use\|let\)\>'
syntax match silcFunction '\<\h\w*\ze\s*('
syntax match silcNumber '\<\d\+\%(\.\d\+\)\?\>'
syntax match silcOperator '::\|\.\.\|[=!<>]=\|<<\|>>\|->\|||\|@@\|[-+*&|!<>=@]'
syntax region silcComment start='/\*' end='\*/' contains=silcTodo
syntax keyword silcTodo TODO FIXME contained

highlight default link silcStructure Structure
highlight default link silcKeyword Keyword
highlight default link silcType Type
highlight default link silcMode StorageClass
highlight default link silcBoolean Boolean
highlight default link silcReserved Error
highlight default link silcHead Include
highlight default link silcFunction Function
highlight default link silcNumber Number
highlight default link silcOperator Operator
highlight default link silcComment Comment
highlight default link silcTodo Todo

let b:current_syntax = 'silc'
