"""Lines run over a club. Their bytes are one stream, which is read record by record as the board reads it."""

from typing import Iterator, List, NamedTuple, Optional, Union

from desk import numbers
from desk.answers import answer_in_words
from desk.club import Club
from desk.faults import Fault
from desk.grammar import Exact, Line
from desk.numbers import Answer
from desk.resolving import new_name, record_of
from desk.sentences import Spoken


class Judged(NamedTuple):
    """A record that was judged: where it stands, and the answer."""
    index: int
    item: Line  # the line where it begins
    record: bytes
    answer: Answer
    words: str
    is_expected: Optional[bool]  # None where no answer is expected


class Reading:
    """A stream of records over a club. What of it makes no whole record yet is kept; a torn place ends the reading."""

    def __init__(self, club: Club, source: str, count: int = 0):
        self.club = club
        self.source = source
        self.pending = b""
        self.began: Optional[Line] = None  # the line where the pending bytes begin
        self.count = count  # the index of the next record
        self.is_torn = False

    def take(self, item: Line) -> Iterator[Judged]:
        """The records that are whole with this line."""
        if self.is_torn:
            return
        record = self.bytes_of(item)
        for _ in range(item.times):
            yield from self.feed(item, record)

    def bytes_of(self, item: Line) -> bytes:
        """The bytes of a line's request on the club as it is now."""
        try:
            return record_of(self.club, item.request)
        except Fault as fault:
            raise fault.at(self.source, item.line) from None

    def feed(self, item: Line, record: bytes) -> Iterator[Judged]:
        """The records that are whole with these bytes of a line."""
        is_aligned = not self.pending
        if is_aligned:
            self.began = item
        self.pending += record
        while not self.is_torn:
            length = numbers.framed(self.pending)
            if length is None:
                if len(self.pending) >= 2 and numbers.length_field(self.pending) < numbers.HEAD:
                    yield self.torn()
                break
            first, self.pending = self.pending[:length], self.pending[length:]
            is_own = is_aligned and first == record
            yield self.judged(self.began, first, item.request if is_own else Exact(first))
            self.began, is_aligned = item, False

    def end(self) -> Iterator[Judged]:
        """What is left at the end is torn."""
        if self.pending and not self.is_torn:
            yield self.torn()

    def torn(self) -> Judged:
        """The answer to a torn place, behind which nothing is read."""
        self.is_torn = True
        return self.judged(self.began, self.pending, Exact(self.pending))

    def judged(self, item: Line, record: bytes, request: Union[Exact, Spoken]) -> Judged:
        """Judges a record, and gives what it made its name."""
        before = Club(self.club.library, self.club.picture, self.club.names)
        answer = self.club.judge(record)
        self.name(item, record, request, answer)
        words = answer_in_words(before, self.club, record, answer)
        is_expected = None if item.answer is None or item.answer == numbers.TOO_LONG else item.answer == answer
        self.count += 1
        return Judged(self.count - 1, item, record, answer, words, is_expected)

    def name(self, item: Line, record: bytes, request: Union[Exact, Spoken], answer: Answer) -> None:
        """Names what an accepted MAKE made, and remembers the name of a refused one."""
        name, where = new_name(request), f"line {item.line}"
        if answer.code != numbers.DONE:
            if name:
                self.club.names.not_made(name, where)
        elif numbers.kind_of(record) == "MAKE":
            fields = numbers.taken_apart(record)[1]
            if name:
                self.club.names.bind(name, fields["place"], where)
            else:
                self.club.names.bind_plain(fields["sort"], fields["place"], where)


def run(club: Club, source: str, items: List[Line]) -> Iterator[Judged]:
    """All records of some lines, judged one after the other."""
    reading = Reading(club, source)
    for item in items:
        yield from reading.take(item)
    yield from reading.end()
