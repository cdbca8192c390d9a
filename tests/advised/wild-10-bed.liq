# help: `%mp3` is no word of this language; in its place: `%wav`, and encode the file or the pipe with another program
# 10: news with bed, delayed jingles, ads at fixed minutes
ads = playlist(mode="normal", "ads.m3u")
jingles = delay(600., playlist("jingles.m3u"))
music = playlist(reload=3600, "music.m3u")
news = add(weights=[3, 1], [single("news.wav"), amplify(0.3, single("bed.mp3"))])
radio = random(weights=[1, 5], [jingles, music])
radio = switch(track_sensitive=false, [({ 0m-5m }, news), ({ 20m-21m or 40m-41m }, ads), ({ true }, radio)])
radio = mksafe(radio)
output.file(%mp3, "radio.mp3", radio)
output.file(%wav, "radio.wav", radio)
