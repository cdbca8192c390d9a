# help: a name of a file stands in quotes: `"a.wav"`
radio = single(a.wav)
output.file(%wav, "o.wav", radio)
