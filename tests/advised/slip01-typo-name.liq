# help: do you mean `music`?
music = playlist("music.m3u")
radio = mksafe(musc)
output.file(%wav, "o.wav", radio)
