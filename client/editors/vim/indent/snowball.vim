" By brackets that are no part of a literal or a comment, which the syntax tells. Outside of them an item is at the left margin.
if exists('b:did_indent') | finish | endif
let b:did_indent = 1
let s:items = '^\s*\%(define\|backwardmode\|externals\|routines\|groupings\|integers\|booleans\|strings\|stringescapes\|stringdef\)\>'
let s:unfinished = '\<\%(as\|and\|or\|backwards\|do\|fail\|for\|goto\|gopast\|not\|repeat\|test\|try\)$\|[-+]$'
setlocal indentexpr=SnowballIndent(v:lnum) indentkeys=0(,0),!^F,o,O,=define,=backwardmode
let b:undo_indent = 'setlocal indentexpr< indentkeys<'
if exists('*SnowballIndent') | finish | endif

function s:IsIn(groups, line, column)
  return synIDattr(synID(a:line, a:column, 1), 'name') =~# a:groups
endfunction

" Whether what was begun in the lines before goes on: the last one that has code ends so.
function s:IsUnfinished(line)
  let line = prevnonblank(a:line - 1)
  while line && s:IsIn('Comment', line, indent(line) + 1)
    let line = prevnonblank(line - 1)
  endwhile
  return substitute(getline(line), '\s*\%(//.*\|/\*.*\)\?$', '', '') =~# s:unfinished
endfunction

function SnowballIndent(line)
  let text = getline(a:line)
  if text !~# '^\s*/[/*]' && s:IsIn('Comment', a:line, 1) | return -1 | endif
  call cursor(a:line, 1)
  let skip = "synIDattr(synID(line('.'), col('.'), 1), 'name') =~# 'Comment\\|Todo\\|Literal\\|Insertion\\|Macro'"
  let [line, column] = searchpairpos('(', '', ')', 'bW', skip)
  if !line
    let is_new = text =~# '^\s*\%(/[/*].*\)\?$'
    return text =~# s:items || text =~# '^\s*)' || is_new && !s:IsUnfinished(a:line) ? 0 : shiftwidth()
  endif
  " (what is done for the strings before it is farther right than they are)
  let is_done = text =~# '^\s*(' && strpart(getline(line), 0, column - 1) =~# '\<among\s*$'
  return indent(line) + (text =~# '^\s*)' ? 0 : 1 + is_done) * shiftwidth()
endfunction
