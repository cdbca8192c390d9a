# help: write `=` in place of `:`, or nothing
def louder(s):
  amplify(2., s)
end
radio = louder(single("a.wav"))
output.file(%wav, "o.wav", radio)
