# help: `fade_in=` of `crossfade` is no word of this language: leave it out: `duration` is the length of the mix
radio = mksafe(crossfade(fade_in=2., playlist("music.m3u")))
output.file(%wav, "o.wav", radio)
