# help: `music` is bound in line 3 alone: bind it above this
radio = mksafe(music)
music = playlist("music.m3u")
output.file(%wav, "o.wav", radio)
