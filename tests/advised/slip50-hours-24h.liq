# accepted
radio = switch([({0h-24h}, single("a.wav")), ({true}, blank())])
output.file(%wav, "o.wav", radio)
