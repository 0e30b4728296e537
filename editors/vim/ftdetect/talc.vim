" Texts of talc by their names. Vim takes *.f for Fortran, so a source is told by a modeline or by hand elsewhere.
autocmd BufRead,BufNewFile *.tal setfiletype talc_tal
autocmd BufRead,BufNewFile */talc/*.f,*/examples/*.f set filetype=talc_source
