" Vim syntax for rule files of opa.
if exists("b:current_syntax")
  finish
endif

syntax case match
syntax iskeyword @,48-57,_,',-

" Words that begin a block, and those that begin a line of a block.
syntax match opaBlock /^\(verb\|entity\|global\|goal\|screen\|include\|table\|members\)\>/
syntax match opaDeclared /^\(\t\|  \)in\>/
syntax match opaDeclared /^\(\t\|  \)\(bool\|number\|currency\|text\|date\|reference\|every\)\>/ nextgroup=opaName skipwhite
" The name of what is declared, up to its bounds; in the name of something true or false the verb stands in brackets.
syntax match opaName /[^: \t][^:]*/ contained contains=opaVerb

" How conditions are joined, and what stands above a group.
syntax keyword opaConnective and or not if otherwise
syntax match opaHead /^\s\+\zs\(all\|both\|any\|either\|it is not true that\)$/
syntax match opaHead /^\s\+\zsfor \(all\|at least one\) of\>/

syntax keyword opaFunction Round Minimum Maximum AddDays AddMonths AddYears DaysBetween YearsBetween YearOf MonthOf DayOf Concatenate
syntax keyword opaFunction Certain CurrentlyKnown ForAll Exists For InstanceCount InstanceCountIf InstanceSum InstanceSumIf InstanceMaximum InstanceMinimum
syntax keyword opaFunction ValueAt IntervalAlways IntervalSometimes IntervalDailySum IntervalMaximum IntervalMinimum IntervalConsecutiveDays
syntax keyword opaFunction TemporalAlwaysDays TemporalSometimesDays TemporalBefore TemporalOnOrAfter TemporalYearsSince

syntax keyword opaLiteral true false uncertain
syntax match opaNumber /\<\d\+\(\.\d\{1,4}\)\?\>/
syntax match opaDate /\<\d\{4}-\d\{2}-\d\{2}\>/
syntax region opaText start=/"/ skip=/""/ end=/"/ oneline
syntax match opaVerb /\[[^]]*\]/
syntax match opaComment /^\s*#.*/

highlight default link opaBlock Keyword
highlight default link opaDeclared Type
highlight default link opaName Identifier
highlight default link opaConnective Operator
highlight default link opaHead Statement
highlight default link opaFunction Function
highlight default link opaLiteral Boolean
highlight default link opaNumber Number
highlight default link opaDate Number
highlight default link opaText String
highlight default link opaVerb Special
highlight default link opaComment Comment

let b:current_syntax = "opa"
