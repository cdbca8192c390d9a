# help: a crossfade plays this source, and it is played beside it, too: play the crossfaded one in both places, or make the source twice, by a second `single` or `playlist`
s = single("a.wav")
radio = add([crossfade(duration=1., s), s])
output.file(%wav, "o.wav", radio)
