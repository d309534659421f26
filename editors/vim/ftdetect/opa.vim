" Rule files have no ending of their own: the first line that is no comment tells them, where it begins a declaration.
autocmd BufNewFile,BufRead *.opa setfiletype opa
autocmd BufNewFile,BufRead *.txt call s:Detect(getline(1, 200))

function! s:Detect(lines)
  let first = get(a:lines, match(a:lines, '^\s*[^#[:space:]]'), '')
  if first =~# '^\(global$\|\(verb\|entity\|goal\|include\|table\|screen\) \)'
    set filetype=opa
  endif
endfunction
