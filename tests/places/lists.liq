# Lists of lists, as long as the work allows.
copies0 = [1, 1]
copies1 = [copies0, copies0]
list2 = [2, 2, 2]
list3 = [3, 3, 3]
list4 = [4, 4, 4]
list5 = [5, 5, 5]
list6 = [6, 6, 6]
list7 = [7, 7, 7]
list8 = [8, 8, 8]
list9 = [9, 9, 9]
list10 = [10, 10, 10]
list11 = [11, 11, 11]
list12 = [12, 12, 12]
list13 = [13, 13, 13]
list14 = [14, 14, 14]

pairs = [
  (1, "one"),
  (2, "two"),
  (3, "three")
]

source1 = blank(duration=1.)
source2 = blank(duration=2.)
source3 = blank(duration=3.)
source4 = blank(duration=4.)
source5 = blank(duration=5.)

source6 = blank(duration=6.)
source7 = blank(duration=7.)
source8 = blank(duration=8.)
source9 = blank(duration=9.)
source10 = blank(duration=10.)

source11 = blank(duration=11.)
source12 = blank(duration=12.)
source13 = blank(duration=13.)
source14 = blank(duration=14.)
source15 = blank(duration=15.)

source16 = blank(duration=16.)
source17 = blank(duration=17.)
source18 = blank(duration=18.)
source19 = blank(duration=19.)
source20 = blank(duration=20.)

source21 = blank(duration=21.)
source22 = blank(duration=22.)
source23 = blank(duration=23.)
source24 = blank(duration=24.)
source25 = blank(duration=25.)

source26 = blank(duration=26.)
source27 = blank(duration=27.)
source28 = blank(duration=28.)
source29 = blank(duration=29.)
source30 = blank(duration=30.)

everything = sequence([
  source1, source2, source3, source4, source5, source6,
  source7, source8, source9, source10, source11, source12,
  source13, source14, source15, source16, source17, source18,
  source19, source20, source21, source22, source23, source24,
  source25, source26, source27, source28, source29, source30
])

output.file(%wav, "lists.wav", everything)
# ..
# ..
# ..
# ..
# ..
# ..
# ..
# ..
# ..
# ..
# ..
# ..
# ..
# ..
# ..
# ..
# ..
# ..
# ..
# ..
# ..
# ..
# ..
# ..
# ..
# ..
# ..
# ..
