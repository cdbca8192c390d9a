# help: leave `return` out: the value of a def is the last thing in it
def louder(s) =
  return amplify(2., s)
end
radio = louder(single("a.wav"))
output.file(%wav, "o.wav", radio)
