"""The proved library, called by ctypes. A method calls an entry point of include/selkaum.h, and decides nothing."""

import ctypes
import os
import signal
import subprocess
import sys
import time
from pathlib import Path
from typing import Optional, Tuple

from desk import numbers
from desk.faults import Fault
from desk.numbers import Answer

ROOT = Path(__file__).resolve().parent.parent.parent
SHARED = ROOT / "target" / "shared" / "libselkaum.so"
PROVE = ROOT / "tools" / "prove"

ANSWER_BYTES = 962
CODE, CITED = 960, 961
SET_BYTES = 8
GAIN_BYTES = 2
LARGEST_CARD = 25376
CARD_ANSWER_BYTES = 961

LENT = (ctypes.c_char_p, ctypes.c_size_t)  # a pointer and the number of bytes behind it
BYTE = (ctypes.c_uint8,)
SIGNATURES = {
    "initial": LENT,
    "judge": LENT * 3,
    "gain": LENT * 3,
    "sort": LENT + BYTE + LENT,
    "above": LENT + BYTE + LENT,
    "below": LENT + BYTE + LENT,
    "owned": LENT + BYTE + LENT,
    "managed": LENT + BYTE + LENT,
    "administered": LENT + BYTE * 2 + LENT,
    "permitted": LENT + BYTE * 2 + LENT,
    "write_card": LENT * 3,
    "read_card": LENT * 3,
}


def is_fresh() -> bool:
    """True if nothing that the library is made from is younger than it, so that nobody needs to be asked."""
    try:
        made = SHARED.stat().st_mtime
        return (ROOT / "crates.txt").stat().st_mtime <= made and not has_younger(str(ROOT / "crates"), made)
    except OSError:
        return False


def has_younger(folder: str, made: float) -> bool:
    """True if something in a folder is younger than a time; what the kit makes in the folder out/ of a crate is not."""
    with os.scandir(folder) as entries:
        return any(entry.name != "out" and (entry.stat().st_mtime > made or
                                            entry.is_dir() and has_younger(entry.path, made))
                   for entry in entries)


def prove() -> int:
    """Has the library proved and linked; the status of tools/prove, which ends with the desk."""
    enders = (signal.SIGTERM, signal.SIGHUP)
    before = [signal.signal(number, lambda which, _: sys.exit(128 + which)) for number in enders]
    try:
        return proved()
    finally:
        for number, handler in zip(enders, before):
            signal.signal(number, handler)


def proved() -> int:
    """The same; what ends the desk meanwhile ends tools/prove first."""
    try:
        process = subprocess.Popen([str(PROVE), "library"], stdin=subprocess.DEVNULL, stdout=subprocess.DEVNULL,
                                   env={**os.environ, "SELKAUM_CALLER": "desk"})
    except OSError as error:
        raise Fault(f"the library has to be built, and tools/prove can't be run: {error.strerror}") from None
    with process:
        try:
            while process.poll() is None:
                time.sleep(0.05)
            return process.returncode
        except BaseException:
            process.terminate()
            raise


def build() -> None:
    """Has the library proved and linked where it is not fresh; it is fresh once that was found to be up to date."""
    if is_fresh():
        return
    began = time.time()
    status = prove()
    if status == 1:
        raise Fault("the library is not proved, so it is not used")
    if status != 0 or not SHARED.exists():
        raise Fault(f"the library could not be built: tools/prove ended with the status {status}")
    if SHARED.stat().st_mtime < began and os.access(SHARED, os.W_OK):
        os.utime(SHARED, (began, began))


class Library:
    """The entry points. A picture is 960 bytes; a set of objects is a number, bit n for object n."""

    def __init__(self, path: Path = SHARED):
        try:
            shared = ctypes.CDLL(str(path))
            self.entries = {name: getattr(shared, f"selkaum_{name}") for name in SIGNATURES}
        except OSError as error:
            raise Fault(f"the library can't be loaded: {error}") from None
        except AttributeError as error:
            raise Fault(f"the library is not the one that the desk needs: {error}") from None
        for name, entry in self.entries.items():
            entry.argtypes, entry.restype = list(SIGNATURES[name]), ctypes.c_size_t

    def call(self, name: str, room: int, *arguments) -> Tuple[int, bytes]:
        """Calls an entry point whose last lent buffer is written: what it returns, and that buffer."""
        out = ctypes.create_string_buffer(room)
        count = self.entries[name](*arguments, out, room)
        return count, out.raw

    def asked(self, name: str, room: int, *arguments) -> bytes:
        """The same for an entry point that fills its buffer whole."""
        count, out = self.call(name, room, *arguments)
        if count != room:
            raise Fault(f"the library is not the one that the desk needs: selkaum_{name} returns {count}, not {room}")
        return out

    def initial(self) -> bytes:
        """The founding's picture."""
        return self.asked("initial", numbers.PICTURE_BYTES)

    def judge(self, picture: bytes, record: bytes) -> Tuple[bytes, Answer]:
        """The picture after a record, and the answer to it."""
        out = self.asked("judge", ANSWER_BYTES, picture, len(picture), record, len(record))
        return out[:numbers.PICTURE_BYTES], Answer(out[CODE], out[CITED])

    def gain(self, picture: bytes, record: bytes) -> Optional[Tuple[int, int]]:
        """The first gear and operation that a record would permit its sender, who lacks it; None if there is none."""
        count, out = self.call("gain", GAIN_BYTES, picture, len(picture), record, len(record))
        return (out[0], out[1]) if count == GAIN_BYTES else None

    def byte_of(self, name: str, picture: bytes, *asked: int) -> int:
        """A question with one byte for its answer."""
        return self.asked(name, 1, picture, len(picture), *asked)[0]

    def set_of(self, name: str, picture: bytes, *asked: int) -> int:
        """A question with a set of objects for its answer: above, below, owned, managed, administered or permitted."""
        return int.from_bytes(self.asked(name, SET_BYTES, picture, len(picture), *asked), "little")

    def write_card(self, picture: bytes) -> Tuple[int, bytes]:
        """The code, and the card of a sheet."""
        card = ctypes.create_string_buffer(LARGEST_CARD)
        length, code = self.call("write_card", 1, picture, len(picture), card, LARGEST_CARD)
        return code[0], card.raw[:length]

    def read_card(self, picture: bytes, card: bytes) -> Tuple[int, bytes]:
        """The code, and the picture after a card was read on a board with this picture."""
        out = self.asked("read_card", CARD_ANSWER_BYTES, picture, len(picture), card, len(card))
        return out[CODE], out[:numbers.PICTURE_BYTES]


def opened() -> Library:
    """The library, built where it has to be."""
    build()
    return Library()
