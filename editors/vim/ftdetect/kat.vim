" Made by editors/generate.py.
autocmd BufNewFile,BufRead *.kat set filetype=kat
autocmd BufNewFile,BufRead *.gkat set filetype=gkat
autocmd BufNewFile,BufRead *.flow set filetype=katflow
