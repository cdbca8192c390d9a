# help: this `)` closes nothing: it is too many, or what it closes is missing before
radio = mksafe(playlist("music.m3u")))
output.file(%wav, "o.wav", radio)
