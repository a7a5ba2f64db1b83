" The folder tools/editor/vim goes into vim's packages: cp -r tools/editor/vim ~/.vim/pack/venice/start/venice
autocmd BufNewFile,BufRead *.ven setfiletype venice
" Other assemblers use .asm too: a text of this one begins with `version` or `spad`, behind comments and empty lines.
autocmd BufNewFile,BufRead *.asm call s:Assembler()

function! s:Assembler() abort
  let l:first = nextnonblank(1)
  while l:first > 0 && getline(l:first) =~# '^\s*#'
    let l:first = nextnonblank(l:first + 1)
  endwhile
  if l:first > 0 && getline(l:first) =~# '^\s*\(version\|spad\)\s'
    set filetype=veniceasm
  endif
endfunction
