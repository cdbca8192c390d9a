# help: one source cannot run in two clocks: make it twice, or give one of them a copy, as `clock(id="b", mksafe(buffer(s)))`
s = single("a.wav")
output.file(%wav, "o.wav", clock(id="a", s))
output.file(%wav, "p.wav", clock(id="b", s))
