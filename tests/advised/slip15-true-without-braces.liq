# help: a predicate stands in braces: `({true}, SOURCE)`
radio = switch([(true, single("a.wav"))])
output.file(%wav, "o.wav", radio)
