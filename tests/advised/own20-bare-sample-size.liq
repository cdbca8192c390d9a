# help: the one option of `%wav` is `samplesize=16` or `samplesize=24`; sides and rate are those of the source and of the script
radio = single("a.wav")
output.file(%wav(24), "o.wav", radio)
