# accepted
radio = single('a.wav')
output.file(%wav, "o.wav", radio)
