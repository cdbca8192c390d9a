# help: not allowed is a `duration` of zero or less, or without a sample
radio = mksafe(crossfade(duration=0., playlist("music.m3u")))
output.file(%wav, "o.wav", radio)
