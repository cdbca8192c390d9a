# help: `duration` is a decimal: write `5.`
radio = mksafe(crossfade(duration=5, playlist("music.m3u")))
output.file(%wav, "o.wav", radio)
