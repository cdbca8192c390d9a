# help: the rate is an int, as `44100`
set("frame.audio.samplerate", 44100.)
radio = single("a.wav")
output.file(%wav, "o.wav", radio)
