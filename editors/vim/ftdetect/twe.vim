" Texts of twe, and the sources and definitions of its repository, are known by their endings.
autocmd BufNewFile,BufRead *.twe setfiletype twe
autocmd BufNewFile,BufRead *.rt setfiletype rattle
autocmd BufNewFile,BufRead *.antt setfiletype antt
