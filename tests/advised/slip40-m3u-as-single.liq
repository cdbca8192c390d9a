# help: a list is played by `playlist("music.m3u")`
radio = single("music.m3u")
output.file(%wav, "o.wav", radio)
