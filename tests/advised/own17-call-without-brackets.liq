# help: the arguments of a call stand in brackets, directly behind its name: `mksafe(music)`
music = playlist("music.m3u")
jingle = single("jingle.wav")
radio = mksafe music
output.file(%wav, "o.wav", radio)
