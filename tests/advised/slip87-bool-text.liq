# help: `track_sensitive` is `true` or `false`: write `false`
radio = fallback(track_sensitive="false", [single("a.wav")])
output.file(%wav, "o.wav", radio)
