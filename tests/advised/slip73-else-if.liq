# help: write `else if .. then .. else .. end end`
x = true
radio = if x then single("a.wav") elsif x then single("b.wav") else blank() end
output.file(%wav, "o.wav", radio)
