# help: do you mean `playlist`?
radio = mksafe(playist("music.m3u"))
output.file(%wav, "o.wav", radio)
