# help: the key of a setting stands in quotes: `"frame.audio.samplerate"`
set(frame.audio.samplerate, 48000)
radio = single("a.wav")
output.file(%wav, "o.wav", radio)
