# help: write `false`, in small letters
radio = fallback(track_sensitive=False, [single("a.wav")])
output.file(%wav, "o.wav", radio)
