# help: a predicate is no truth value, as it changes with the time: `switch([({..}, SOURCE), ({true}, SOURCE)])`
radio = if {6w-7w} then single("a.wav") else single("b.wav") end
output.file(%wav, "o.wav", radio)
