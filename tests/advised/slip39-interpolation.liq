# help: a text is taken letter by letter: `#{..}` is not filled in
dir = "x"
radio = single("#{dir}/a.wav")
output.file(%wav, "o.wav", radio)
