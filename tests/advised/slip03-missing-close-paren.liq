# help: `mksafe(` of line 2 is not closed: `)` is missing before this
radio = mksafe(playlist("music.m3u")
output.file(%wav, "o.wav", radio)
