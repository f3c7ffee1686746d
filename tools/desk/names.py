"""The names of a club's objects: one for each number, from its MAKE on."""

import difflib
from typing import Dict, List, NamedTuple, Optional

from desk import numbers
from desk.faults import Fault
from desk.tokens import Word

FOUNDING_NAMES = ((0, numbers.GROUP, "club"), (1, numbers.MEMBER, "founder"))


class Bound(NamedTuple):
    """What a name stands for, and since when."""
    number: int
    since: str


def plain_name(sort: int, number: int) -> str:
    """The name of an object that nobody named: member2, group4, gear6."""
    return f"{numbers.SORTS[sort]}{number}"


class Names:
    """Names and numbers, each of the other. A name stays bound: no request removes an object."""

    def __init__(self) -> None:
        self.bound: Dict[str, Bound] = {}
        self.by_number: Dict[int, str] = {}
        self.refused: Dict[str, str] = {}  # names whose MAKE was not done, and where that stands

    def copy(self) -> "Names":
        """The same names, to go on from apart."""
        twin = Names()
        twin.bound, twin.by_number, twin.refused = dict(self.bound), dict(self.by_number), dict(self.refused)
        return twin

    def bind(self, name: str, number: int, since: str) -> None:
        """From now on the name stands for the number."""
        if name in self.bound or number in self.by_number:
            raise ValueError(f"{name} or {number} is bound already")
        self.bound[name] = Bound(number, since)
        self.by_number[number] = name

    def bind_plain(self, sort: int, number: int, since: str) -> None:
        """Names an object that nobody named, unless its plain name is another's."""
        name = plain_name(sort, number)
        if name not in self.bound and number not in self.by_number:
            self.bind(name, number, since)

    def not_made(self, name: str, where: str) -> None:
        """Remembers that the MAKE of a name was not done."""
        self.refused[name] = where

    def check_free(self, word: Word) -> None:
        """A fault if the name stands for an object already."""
        known = self.bound.get(word.text)
        if known:
            raise Fault(f"{word.text!r} already stands for object {known.number} ({known.since}); expected a new name",
                        word.column)

    def number(self, word: Word) -> int:
        """The number that a name stands for, or a fault."""
        known = self.bound.get(word.text)
        if known:
            return known.number
        if word.text in self.refused:
            raise Fault(f"{word.text!r} stands for nothing: its MAKE was not done ({self.refused[word.text]}); "
                        "expected the name of an object", word.column)
        near = difflib.get_close_matches(word.text, self.bound, 1)
        hint = f"; perhaps {near[0]!r}?" if near else ""
        raise Fault(f"no object is called {word.text!r}; expected a name that a MAKE has given{hint}", word.column)

    def name(self, number: int) -> Optional[str]:
        """The name of a number; None if it has none."""
        return self.by_number.get(number)

    def all(self) -> List[str]:
        """All names, sorted."""
        return sorted(self.bound)
