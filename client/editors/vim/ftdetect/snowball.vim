autocmd BufNewFile,BufRead *.sbl setfiletype snowball
autocmd BufNewFile,BufRead *.words setfiletype snowball-words
autocmd BufNewFile,BufRead *.stems setfiletype snowball-stems
" With vim-lsp, in vimrc:
"   autocmd User lsp_setup call lsp#register_server({'name': 'snowbench', 'cmd': ['/path/to/snowbench', 'lsp'],
"     \ 'allowlist': ['snowball', 'snowball-words', 'snowball-stems'], 'initialization_options': {'mark': 'HEAD'}})
