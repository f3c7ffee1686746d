"""What is read and written: words, records and cards, each with one clear sentence where it fails."""

import os
import re
import sys
import tempfile
from pathlib import Path
from typing import BinaryIO

from desk import numbers
from desk.club import Club, named
from desk.faults import Fault
from desk.grammar import MOST_BYTES
from desk.library import LARGEST_CARD, Library

MOST_TEXT = 4 << 20
STANDARD_INPUT = "standard input"
IN_WORDS = (".club", ".case")  # how the names of files in words end
UTF8_BOM = b"\xef\xbb\xbf"
UTF16_BOMS = (b"\xff\xfe", b"\xfe\xff")
LONE_RETURN = re.compile(rb"\r(?!\n|\Z)")


def source_name(name: str) -> str:
    """What a file is called in messages."""
    return STANDARD_INPUT if name == "-" else name


def read_some(file: BinaryIO, most: int) -> bytes:
    """At most as many bytes as given, whatever they come from."""
    parts, left = [], most
    while left:
        part = file.read(left)
        if not part:
            break
        parts.append(part)
        left -= len(part)
    return b"".join(parts)


def read_bytes(name: str, most: int, what: str) -> bytes:
    """All bytes of a file, or of standard input for `-`; a fault where it can't be read or has more than `most`."""
    source = source_name(name)
    try:
        if name == "-":
            if sys.stdin is None:
                raise Fault(f"{source}: it is closed; expected {what}")
            data = read_some(sys.stdin.buffer, most + 1)
        else:
            with open(name, "rb") as file:
                data = read_some(file, most + 1)
    except IsADirectoryError:
        raise Fault(f"{source}: it is a directory; expected {what}") from None
    except FileNotFoundError:
        raise Fault(f"{source or 'an empty name'}: there is no such file; expected {what}") from None
    except PermissionError:
        raise Fault(f"{source}: it may not be read; expected {what}") from None
    except (OSError, ValueError) as error:
        raise Fault(f"{source}: it can't be read: {getattr(error, 'strerror', None) or error}") from None
    if len(data) > most:
        raise Fault(f"{source}: it has more than {most} bytes; expected {what}")
    return data


def fault_at(source: str, first: int, data: bytes, at: int, what: str) -> Fault:
    """A fault at a byte of a text; the bytes before it are UTF-8."""
    start = data.rfind(b"\n", 0, at) + 1
    column = len(data[start:at].decode("utf-8", "replace")) + 1
    fault = Fault(f"{what}; expected text in UTF-8, its lines ending in a line feed", column)
    return fault.at(source, first + data.count(b"\n", 0, at))


def decoded(source: str, data: bytes, first: int = 1) -> str:
    """Bytes as text, its first line with this number; a fault says where a byte stands that has no place in it."""
    if data.startswith(UTF16_BOMS):
        raise fault_at(source, first, data, 0, f"this is UTF-16, by its first bytes {data[0]:02X} {data[1]:02X}")
    data = data[len(UTF8_BOM):] if data.startswith(UTF8_BOM) else data
    try:
        text = data.decode("utf-8")
    except UnicodeDecodeError as error:
        what = f"the byte {data[error.start]:02X} is not UTF-8 (is this Latin-1, or records, which `desk words` reads?)"
        raise fault_at(source, first, data, error.start, what) from None
    if b"\0" in data:
        what = "a NUL byte stands here (are these records, which `desk words` reads?)"
        raise fault_at(source, first, data, data.index(0), what)
    lone = LONE_RETURN.search(data)
    if lone:
        raise fault_at(source, first, data, lone.start(), "a carriage return stands here alone")
    return text


def read_text(name: str) -> str:
    """The text of a file in words."""
    data = read_bytes(name, MOST_TEXT, f"a file of requests in words, at most {MOST_TEXT >> 20} MiB")
    return decoded(source_name(name), data)


def read_records(name: str) -> bytes:
    """The bytes of a file of records."""
    return read_bytes(name, MOST_BYTES, f"a file of records, at most {MOST_BYTES >> 20} MiB")


def read_card(library: Library, name: str) -> Club:
    """The club of a card, its objects under their plain names."""
    data = read_bytes(name, LARGEST_CARD, f"a card, at most {LARGEST_CARD} bytes")
    code, picture = library.read_card(library.initial(), data)
    if code != numbers.DONE:
        word, sentence = numbers.REFUSALS[code]
        raise Fault(f"{source_name(name)}: {code} {word}: {sentence}")
    return named(library, picture, "on the card")


def check_target(name: str) -> None:
    """A fault if a card may not have this name: it takes the place of a plain file, and of none in words."""
    if not name:
        raise Fault("an empty name: there is no such file; expected a name for the card")
    if os.path.isdir(name):
        raise Fault(f"{name}: it is a directory; expected a name for the card")
    if os.path.lexists(name) and not os.path.isfile(name):
        raise Fault(f"{name}: it is no plain file, so no card takes its place; expected another name")
    if name.endswith(IN_WORDS):
        raise Fault(f"{name}: a name that ends so is of a file in words; expected another name for the card")


def check_apart(file: str, card: str) -> None:
    """A fault if a card would take the place of the very file that it is made from."""
    try:
        is_same = file != "-" and os.path.samefile(file, card)
    except (OSError, ValueError):
        return
    if is_same:
        raise Fault(f"{card}: it is the file that the card is made from; expected another name for the card")


def replace(name: str, data: bytes) -> None:
    """Writes a new file beside the one of that name, has the system store it, and puts it there. A link stays."""
    beside = None
    check_target(name)
    try:
        folder, base = os.path.split(os.path.realpath(name))
        handle, beside = tempfile.mkstemp(prefix=f"{base}.", dir=folder)
        with os.fdopen(handle, "wb") as file:
            file.write(data)
            file.flush()
            os.fsync(file.fileno())
        os.replace(beside, os.path.join(folder, base))
    except (OSError, ValueError) as error:
        if beside:
            Path(beside).unlink(missing_ok=True)
        raise Fault(f"{name}: it can't be written: {getattr(error, 'strerror', None) or error}") from None


def write_file(name: str, data: bytes) -> None:
    """Writes a file anew."""
    try:
        with open(name, "wb") as file:
            file.write(data)
    except (OSError, ValueError) as error:
        raise Fault(f"{name}: it can't be written: {getattr(error, 'strerror', None) or error}") from None


def write_card(club: Club, name: str) -> int:
    """Writes the card of a club; its length."""
    code, card = club.library.write_card(club.picture)
    if code == numbers.DAMAGED:
        raise Fault(f"{name}: {code} {numbers.word_of(code)}: the sheet is not sound, so no card is written")
    if code != numbers.DONE:
        raise Fault(f"{name}: {code} {numbers.word_of(code)}: {numbers.REFUSALS[code].sentence}")
    replace(name, card)
    return len(card)
