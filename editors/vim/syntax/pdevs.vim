" Vim syntax for Parallel DEVS models.
if exists("b:current_syntax")
  finish
endif

syntax keyword pdevsStructure atomic coupled root
syntax keyword pdevsDeclaration in out var flag bag phases start hold part link
syntax keyword pdevsRule output internal external confluent
syntax keyword pdevsStatement if else for add to drop from send goto
syntax keyword pdevsOperator not and or
syntax keyword pdevsFunction size sum least most times
syntax keyword pdevsConstant forever true false elapsed self
" The word of a header is a name elsewhere: here it begins a line, before a number.
syntax match pdevsStructure "^\s*\zsversion\ze\s\+\d"
" These are names in a text that does not begin with the header of version 2 or 3.
if search('\%^\_s*\%(#.*\_s*\)*version\_s\+0*[23]\_s*;', 'cnw')
  syntax keyword pdevsDeclaration queue
  syntax keyword pdevsStatement push pop
  syntax keyword pdevsFunction front
endif
" These are names in a text that does not begin with the header of version 3. No form has them.
if search('\%^\_s*\%(#.*\_s*\)*version\_s\+0*3\_s*;', 'cnw')
  syntax keyword pdevsUnused const each when
endif
syntax match pdevsNumber "\<\d\+\>"
syntax match pdevsComment "#.*$" contains=@Spell

highlight default link pdevsStructure Structure
highlight default link pdevsDeclaration StorageClass
highlight default link pdevsRule Label
highlight default link pdevsStatement Statement
highlight default link pdevsOperator Operator
highlight default link pdevsFunction Function
highlight default link pdevsConstant Constant
highlight default link pdevsUnused Error
highlight default link pdevsNumber Number
highlight default link pdevsComment Comment

let b:current_syntax = "pdevs"
