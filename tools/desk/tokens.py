"""A line cut into words, each with its column, and a cursor that goes through them."""

import re
import unicodedata
from typing import List, NamedTuple, Optional, Sequence

from desk import numbers
from desk.faults import Fault

ARROW = "->"
PLACE_SIGN = "="
COMMANDS = ("may", "who", "what-if", "show", "draw", "save", "load", "help", "quit")  # those of the prompt
PLAIN_WORDS = ("in", "into", "from", "of", "over", "warrant", "rule", "all", "bytes", "repeat")
RESERVED = frozenset((*numbers.KINDS, *numbers.SORTS[1:], *numbers.WARRANTS[1:], *numbers.OPERATIONS,
                      *PLAIN_WORDS, *COMMANDS))
LONGEST_NAME = 64
NAME_RULE = f"a name has letters, digits, _ and -, at most {LONGEST_NAME}, and does not begin with a digit or -"

WORD = re.compile(r"->|=|(?:(?!->)[^\s=])+")
NAME = re.compile(r"[^\W\d][\w-]*")
DIGITS = re.compile(r"[0-9]+")
LONGEST_NUMBER = 20  # digits; no count or number of the grammar needs as many
LONGEST_SHOWN = 60  # characters of a faulty word that a message shows


class Word(NamedTuple):
    """A word of a line, and the column of its first character, from 1."""
    text: str
    column: int


def cut(content: str) -> List[Word]:
    """The words of a line, up to its comment."""
    text = content.partition("#")[0]
    return [Word(unicodedata.normalize("NFC", match[0]), match.start() + 1) for match in WORD.finditer(text)]


def quoted(text: str) -> str:
    """A faulty word as a message shows it, cut where it is very long."""
    return repr(text if len(text) <= LONGEST_SHOWN else text[:LONGEST_SHOWN] + "..")


def is_number(word: Word) -> bool:
    """True if the word is a plain number."""
    return bool(DIGITS.fullmatch(word.text))


def number(word: Word, lowest: int, highest: int, what: str) -> int:
    """The decimal number in a word, or a fault that says what it should have been."""
    value = int(word.text) if is_number(word) and len(word.text) <= LONGEST_NUMBER else -1
    if not lowest <= value <= highest:
        raise Fault(f"{what} must be a number from {lowest} to {highest}, not {quoted(word.text)}", word.column)
    return value


def check_name(word: Word, what: str) -> Word:
    """The word, if it can be a name; else a fault."""
    if word.text in RESERVED or word.text in (ARROW, PLACE_SIGN):
        raise Fault(f"{word.text!r} is a word of the grammar and no name; expected {what}", word.column)
    if not NAME.fullmatch(word.text) or len(word.text) > LONGEST_NAME:
        raise Fault(f"{quoted(word.text)} is no name; expected {what} ({NAME_RULE})", word.column)
    return word


class Cursor:
    """The words of a request, taken one after the other."""

    def __init__(self, words: Sequence[Word], end: int):
        self.words = list(words)
        self.position = 0
        self.end = end  # the column behind the last word

    def peek(self) -> Optional[Word]:
        """The next word, which stays; None at the end."""
        return self.words[self.position] if self.position < len(self.words) else None

    def take(self, what: str) -> Word:
        """The next word, or a fault that says what is missing."""
        word = self.peek()
        if word is None:
            raise Fault(f"the line ends here; expected {what}", self.end)
        self.position += 1
        return word

    def reference(self, what: str) -> Word:
        """A name or a plain number."""
        word = self.take(what)
        if is_number(word):
            number(word, 0, numbers.LARGEST_BYTE, what)
            return word
        return check_name(word, f"{what}: a name or a number")

    def literal(self, text: str, form: str) -> None:
        """This very word."""
        word = self.take(f"`{text}`: {form}")
        if word.text != text:
            raise Fault(f"{quoted(word.text)} stands here; expected `{text}`: {form}", word.column)

    def choice(self, words: Sequence[str], what: str) -> Word:
        """One of some words."""
        word = self.take(f"{what}: {', '.join(words)}")
        if word.text not in words:
            raise Fault(f"{quoted(word.text)} is no {what}; expected {', '.join(words)}", word.column)
        return word

    def place(self, highest: int) -> Optional[Word]:
        """A place behind `=`, if one is given, with no word behind it."""
        word = self.peek()
        if word is None or word.text != PLACE_SIGN:
            return None
        self.take("a place")
        given = self.take(f"a place behind `=`, a number (the table has 0 to {highest})")
        number(given, 0, numbers.LARGEST_BYTE, "the place behind `=`")
        return given

    def finish(self, form: str) -> None:
        """A fault if there are more words."""
        word = self.peek()
        if word is not None:
            raise Fault(f"{quoted(word.text)} is one word too many; expected the end of the request: {form}",
                        word.column)
