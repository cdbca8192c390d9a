# help: `mean` takes a stereo source and gives a mono one, `stereo` the other way; a source is of one kind in the whole script
radio = stereo(single("a.wav"))
s = mean(mean(radio))
output.file(%wav, "o.wav", radio)
