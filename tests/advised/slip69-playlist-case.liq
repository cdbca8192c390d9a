# help: do you mean `playlist`?
radio = mksafe(Playlist("music.m3u"))
output.file(%wav, "o.wav", radio)
