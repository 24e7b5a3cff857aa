" (vim itself takes *.gp for PARI/GP)
autocmd BufRead,BufNewFile *.gp set filetype=goroutines
