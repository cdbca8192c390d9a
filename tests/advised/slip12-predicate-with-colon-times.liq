# help: a time is written `6h30`, and not with a colon
radio = mksafe(switch([({06:00-22:00}, single("a.wav"))]))
output.file(%wav, "o.wav", radio)
