# A list of files, over and over, written in samples of 24 bits; where none of them can be played there is silence.
output.file(%wav(samplesize=24), "wide.wav", mksafe(playlist("music.m3u")))
