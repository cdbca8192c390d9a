# help: write each output to a file of its own, and the trace too; with `--cues` an output A writes A.cue as well
radio = single("a.wav")
output.file(%wav, "o.wav", radio)
output.file(%wav, "o.wav", radio)
