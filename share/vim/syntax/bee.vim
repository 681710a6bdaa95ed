" Models of bee: declarations, statements, what is sought.
if exists("b:current_syntax")
  finish
endif
syntax match beeComment "%.*$"
syntax keyword beeGoal solve satisfy minimize maximize then
syntax keyword beeTruth true false
syntax match beeNumber "-\?\<\d\+\>"
syntax match beeDeclaration "\<\(new_bool\|new_int\|bool2int\)\ze\s*("
syntax match beeStatement "\<\(bool_eq\|bool_\(or\|and\|xor\|iff\)_reif\)\ze\s*("
syntax match beeStatement "\<bool_array_\(or\|and\|xor\|iff\)\(_reif\)\?\ze\s*("
syntax match beeStatement "\<int_\(leq\|geq\|eq\|lt\|gt\|neq\)\(_reif\)\?\ze\s*("
syntax match beeStatement "\<\(bool_array_\(sum\|pb\)\|int_array_\(sum\|lin\)\)_\(leq\|geq\|eq\|lt\|gt\|neq\)\ze\s*("
syntax match beeStatement "\<int_\(plus\|times\|div\|mod\|max\|min\|abs\)\ze\s*("
syntax match beeStatement "\<int_array_\(plus\|max\|min\|allDiff\|allDiff_reif\|allDiffCond\)\ze\s*("
syntax match beeStatement "\<\(bool\|int\)_arrays_lex\(Lt\)\?\(_reif\)\?\ze\s*("
highlight default link beeComment Comment
highlight default link beeGoal Keyword
highlight default link beeTruth Boolean
highlight default link beeNumber Number
highlight default link beeDeclaration Type
highlight default link beeStatement Function
let b:current_syntax = "bee"
