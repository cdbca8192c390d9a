# help: a def begins with `def`: `def f(x) = .. end`
function louder(s) =
  amplify(2., s)
end
radio = louder(single("a.wav"))
output.file(%wav, "o.wav", radio)
