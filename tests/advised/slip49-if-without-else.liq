# help: an `if` has both parts: `if .. then .. else .. end`
x = true
radio = if x then single("a.wav") end
output.file(%wav, "o.wav", radio)
