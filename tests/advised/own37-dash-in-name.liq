# help: a name has no `-`: write `my_radio`
my-radio = single("a.wav")
output.file(%wav, "o.wav", my-radio)
