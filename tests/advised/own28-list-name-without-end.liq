# help: do you mean `music.m3u`?
radio = mksafe(playlist("music"))
output.file(%wav, "o.wav", radio)
