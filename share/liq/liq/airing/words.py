"""The words of a call of liq-air."""
import os
import re
from dataclasses import dataclass, field
from typing import List, Optional

from liq.airing.failed import Failed

USAGE = ("usage: liq air [--password-file=FILE] [--bitrate=KILOBITS] [--meanwhile=FILE] [--repeat] [--titles=FILE]... [--stay] "
         "[--no-clock] [--state=FILE] [--log=FILE] [--name=TEXT] http://HOST:PORT/MOUNT NAME...")
BITRATES = (32, 48, 64, 96, 128, 160, 192, 224, 256, 320)
FLAGS = {"--stay": "stays", "--repeat": "repeats", "--no-clock": "is_free"}
TEXTS = {"password-file": "password_file", "meanwhile": "meanwhile", "state": "state", "log": "log", "name": "name"}


@dataclass
class Call:
    """What a call says. `is_free` is whether it goes by no clock."""
    address: str = ""
    names: List[str] = field(default_factory=list)
    bitrate: int = 128
    titles: List[str] = field(default_factory=list)
    stays: bool = False
    repeats: bool = False
    is_free: bool = False
    password_file: str = ""
    meanwhile: str = ""
    state: str = ""
    log: str = ""
    name: str = "liq"

    def take(self, word: str) -> bool:
        """Takes an option; whether it is one."""
        option, _, value = word[2:].partition("=")
        if word in FLAGS:
            setattr(self, FLAGS[word], True)
        elif option == "titles" and value:
            self.titles.append(value)
        elif option == "bitrate" and re.fullmatch(r"[0-9]{2,3}", value) and int(value) in BITRATES:
            self.bitrate = int(value)
        elif option in TEXTS and value and value.isprintable():
            setattr(self, TEXTS[option], value)
        else:
            return False
        return True

    def password(self) -> str:
        """The password: the first line of a file, or a variable."""
        if not self.password_file:
            return os.environ.get("LIQ_AIR_PASSWORD", "")
        try:
            with open(self.password_file, encoding="utf-8", errors="replace") as file:
                return file.readline().rstrip("\r\n")
        except OSError as error:
            raise Failed(f"{self.password_file}: {error.strerror}", 3) from None


def read(words: List[str]) -> Optional[Call]:
    """The call; nothing where the words are wrong."""
    call = Call()
    rest = [word for word in words if not word.startswith("--")]
    if len(rest) < 2 or not all(rest) or not all(call.take(word) for word in words if word.startswith("--")):
        return None
    call.address, call.names = rest[0], rest[1:]
    return call
