" Vim takes such a file for Swift's intermediate language.
autocmd BufRead,BufNewFile *.sil,*.blocks set filetype=silc
