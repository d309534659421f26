" Prints how often each group of the syntax comes in a file: see docs/TESTING.md.
let out = []
for l in range(1, line('$'))
  for c in range(1, col([l, '$']) - 1)
    let g = synIDattr(synID(l, c, 1), 'name')
    if g != '' && (empty(out) || out[-1] != g) | call add(out, g) | endif
  endfor
endfor
let counts = {}
for g in out | let counts[g] = get(counts, g, 0) + 1 | endfor
for g in sort(keys(counts)) | echo g counts[g] | endfor
