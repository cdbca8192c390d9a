# help: `source.mute` is no word of this language: leave it out: nothing is asked while it plays
radio = source.mute(single("a.wav"))
output.file(%wav, "o.wav", radio)
