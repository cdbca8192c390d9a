# help: a name is bound with `=`
radio == single("a.wav")
output.file(%wav, "o.wav", radio)
