" Vim itself takes *.ti for terminfo, so `setfiletype`, which keeps a type that is already set, isn't enough.
autocmd BufRead,BufNewFile *.ti set filetype=titan
