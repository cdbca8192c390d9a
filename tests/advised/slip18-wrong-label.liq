# help: the labels of `crossfade` are `duration=`
radio = mksafe(crossfade(seconds=5., playlist("music.m3u")))
output.file(%wav, "o.wav", radio)
