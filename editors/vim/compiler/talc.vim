" Faults of the text that is edited, in the quickfix list: `:compiler talc`, and then `:make`, which asks `explain`.
" `:make check` and `:make typeof` ask these, whose places in bytes are made lines and columns here. The program is
" g:talc_program, or else `talc`.
if exists("current_compiler")
  finish
endif
let current_compiler = "talc"

if exists(":CompilerSet") != 2
  command -nargs=* CompilerSet setlocal <args>
endif

let s:make = "c='$*'; " . get(g:, 'talc_program', 'talc') . ' ${c:-explain} %:S'
execute 'CompilerSet makeprg=' . escape(s:make, ' \|"')

" A page of `explain`, without the lines that it shows; the line of a fault of another command; the rest.
CompilerSet errorformat=
      \%E%f:%l:%c:\ %m\ (bytes\ %.%#),
      \%-C%*\\d\ \|%.%#,
      \%-C\ %#\|%.%#,
      \%+C%.%#,
      \%+E%[ELTM]%\\d%\\+\ %\\d%\\+..%\\d%\\+\ %.%#,
      \%-G%.%#

" Gives the faults whose place is in bytes, as `E05 0..1 unbound name`, a line and a column of this buffer.
function! s:Places() abort
  let items = getqflist()
  for item in items
    let place = matchlist(item.text, '^[ELTM]\d\+ \(\d\+\)\.\.\d\+ ')
    if item.lnum == 0 && !empty(place)
      let item.bufnr = bufnr('%')
      " (the end of a text stands on a line of its own, behind the last line end)
      let line = byte2line(place[1] + 1)
      let item.lnum = line > 0 ? line : line('$') + 1
      let item.col = line > 0 ? place[1] + 2 - line2byte(line) : 1
      let item.valid = 1
    endif
  endfor
  call setqflist(items, 'r')
endfunction

augroup talc_places
  autocmd! * <buffer>
  autocmd QuickFixCmdPost <buffer> call s:Places()
augroup END
