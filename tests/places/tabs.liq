# Tabs and lines that end with CR LF.
set("frame.audio.samplerate", 48000)
def quiet(s) =
	amplify(0.5, s)
end
def loud(~by=2., s) =
	louder = amplify(by, s)
	louder
end

tones = [
	square(220.),
	square(440.),
	square(880.)
]

chord = add(normalize=true, tones)

a = quiet(chord)
b = loud(chord)
c = loud(by=3.5, chord)

night = true
choice =
	if night then
		a
	else
		if not night and true then
			b
		else
			c
		end
	end

radio = switch([
	({1w-6w and 8h-18h}, choice),
	({not 1w-6w or 20h}, b),
	({true}, blank())
])

output.file(%wav, "tabs.wav", radio)
output.file(%wav, fallible=true, "again.wav", mksafe(radio))
