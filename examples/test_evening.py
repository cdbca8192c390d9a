"""What the station of evening.liq promises its listeners.

    python3 sounds.py
    python3 -m unittest
"""
import os
import sys
import unittest

os.chdir(os.path.dirname(os.path.abspath(__file__)))   # the names in a script count from the folder of the process
sys.path.append("../share/liq")        # in a checkout; where the package is installed, this line is not needed
from liq import Station  # noqa: E402

station = Station("evening.liq")


class Evening(unittest.TestCase):
    def test_is_never_silent(self) -> None:
        self.assertTrue(station.is_never_silent, station.refusal)
        self.assertEqual(station.silent_hours, [])

    def test_jingle_in_each_minute(self) -> None:
        hour = station.hear("friday:20:00", hours=1)
        self.assertEqual(hour.count("jingle.wav"), 60)
        for track in hour.tracks:
            if track.file == "jingle.wav":
                self.assertEqual(track.moment % 60, 5, track)

    def test_a_jingle_is_due(self) -> None:
        self.assertEqual([case.plays for case in station.cases("friday:20:00:05")], ["jingle.wav"])
        self.assertEqual([case.plays for case in station.cases("friday:20:00:06")], ["music.m3u"])

    def test_begins_with_music(self) -> None:
        for hour in range(24):
            with self.subTest(hour=hour):
                self.assertEqual(station.hear(f"monday:{hour}:00", seconds=5).files[0], "morning.wav")

    def test_is_loud_enough_and_not_clipped(self) -> None:
        minutes = station.hear("sunday:9:00", minutes=5)
        self.assertEqual(minutes.dead_air(longer=2), [])
        self.assertEqual(minutes.gaps, 0)
        self.assertGreater(minutes.loudness, -23)
        self.assertLess(minutes.peak, -1)


if __name__ == "__main__":
    unittest.main()
