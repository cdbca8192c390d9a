# help: the `switch` has no pair that always holds, as its hours are not added up: add `({true}, SOURCE)` at its end, or `mksafe(..)` round it
radio = switch([({6h-22h}, single("a.wav"))])
output.file(%wav, "o.wav", radio)
