# help: a comment begins with `#`
-- the station of the night
radio = single("a.wav")
output.file(%wav, "o.wav", radio)
