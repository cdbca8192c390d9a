# A jingle at most every quarter of an hour
music = playlist("music.m3u")
jingles = delay(900., playlist("jingles.m3u"))
promo = playlist("ads.m3u")
radio = fallback([jingles, music])
radio = rotate(weights=[1, 6], [promo, radio])
radio = mksafe(radio)
output.icecast(%mp3, mount="radio", radio)
