# help: write `%wav`, in small letters
radio = single("a.wav")
output.file(%WAV, "o.wav", radio)
