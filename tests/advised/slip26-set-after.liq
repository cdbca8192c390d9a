# help: settings stand before all other statements, each by itself: move it to the top
radio = single("a.wav")
set("frame.duration", 0.02)
output.file(%wav, "o.wav", radio)
