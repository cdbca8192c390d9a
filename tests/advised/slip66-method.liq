# help: `radio` has no parts: methods of Liquidsoap are left out
radio = single("a.wav")
radio.on_track(print)
output.file(%wav, "o.wav", radio)
