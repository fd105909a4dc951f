" Scripts of packetdrill by their names.
autocmd BufNewFile,BufRead *.pkt setfiletype packetdrill
