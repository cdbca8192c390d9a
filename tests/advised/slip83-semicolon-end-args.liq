# help: a `;` stands behind a statement alone: remove it
radio = single("a.wav";)
output.file(%wav, "o.wav", radio)
