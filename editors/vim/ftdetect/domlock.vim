" Which files are modules and operation files of domlock.
autocmd BufRead,BufNewFile *.dom setfiletype domlock
autocmd BufRead,BufNewFile *.ops setfiletype domlockops
