"""The one grammar of `.club` and `.case` files, line by line. `#` begins a comment; every other line is one of

    founder MAKE member trainer in club         a request in words (see sentences.py)
    MAKE 1 2 2 0                                a request in numbers: its kind, all its fields in document 01's order
    bytes 08 00 63 00*5                         bytes as they are, hexadecimal; `00*5` is a byte five times
    repeat 9 USE 1 1 0                          any of these nine times

each with an expected answer behind it, if one is wanted: `-> CODE CITED`, `-> done`, `-> done by 0` (a USE), a
refusal's word, or `-> too long`.
"""

import re
from typing import List, NamedTuple, Optional, Sequence, Union

from desk import numbers
from desk.faults import Fault
from desk.numbers import Answer, NOTHING_CITED, TOO_LONG
from desk.sentences import Spoken, form, sentence
from desk.tokens import ARROW, Cursor, Word, cut, is_number, number, quoted

HIGHEST_REPEAT = 65536
MOST_BYTES = 1 << 24  # of all records of a file together
BYTES_WORD = re.compile(r"([0-9A-Fa-f]{2})(?:\*([0-9]+))?")


class Exact(NamedTuple):
    """A request in numbers, or bytes as they are."""
    data: bytes


class Line(NamedTuple):
    """A line of a file: a request, how often it comes, and the answer that is expected to each."""
    line: int
    text: str
    request: Union[Exact, Spoken]
    times: int = 1
    answer: Union[Answer, str, None] = None  # the string is TOO_LONG
    column: int = 1  # of the request
    arrow: int = 1  # the column of the arrow, or of the end


def raw_bytes(cursor: Cursor) -> bytes:
    """The bytes that two-digit words stand for, `HH` or `HH*N`."""
    parts, total = [], 0
    while True:
        word = cursor.take("a byte: two hexadecimal digits") if cursor.peek() or not parts else None
        if word is None:
            return b"".join(parts)
        match = BYTES_WORD.fullmatch(word.text)
        if not match:
            raise Fault(f"{quoted(word.text)} is no byte; expected two hexadecimal digits, with *N if it comes N times",
                        word.column)
        times = number(Word(match[2] or "1", word.column), 1, MOST_BYTES, "the count behind *")
        total += times
        if total > MOST_BYTES:
            raise Fault(f"more than {MOST_BYTES} bytes; expected fewer", word.column)
        parts.append(bytes.fromhex(match[1]) * times)


def numbered(kind: str, cursor: Cursor) -> bytes:
    """The record of a kind with the fields that follow as numbers."""
    names, values = numbers.FIELDS[kind], []
    for name in names:
        if cursor.peek() is None:
            break
        word = cursor.take(name)
        if not values and not is_number(word):
            raise Fault(f"{name} must be a number from 0 to 255, not {quoted(word.text)}; "
                        f"in words the sender comes first: {form(kind)}", word.column)
        values.append(number(word, 0, numbers.LARGEST_BYTE, name))
    more = len(cursor.words) - cursor.position
    if more or len(values) < len(names):
        at = cursor.peek().column if more else cursor.end
        raise Fault(f"{kind} takes {len(names)} fields ({' '.join(names)}), not {len(values) + more}", at)
    return numbers.record(kind, *values)


def request_in(cursor: Cursor) -> Union[Exact, Spoken]:
    """A request in numbers, as bytes or in words."""
    first = cursor.peek()
    if first is None:
        raise Fault("expected a request here: a sender and a kind, a kind and numbers, or `bytes`", cursor.end)
    if first.text == "repeat":
        raise Fault("`repeat` stands here a second time; expected a request", first.column)
    if first.text == "bytes":
        cursor.take("bytes")
        return Exact(raw_bytes(cursor))
    if first.text in numbers.KINDS:
        return Exact(numbered(cursor.take("kind").text, cursor))
    return sentence(cursor)


def times_in(cursor: Cursor) -> int:
    """How often the request comes."""
    first = cursor.peek()
    if first is None or first.text != "repeat":
        return 1
    cursor.take("repeat")
    return number(cursor.take(f"how often: a number from 1 to {HIGHEST_REPEAT}"), 1, HIGHEST_REPEAT, "repeat")


def kind_in(request: Union[Exact, Spoken]) -> Optional[str]:
    """The kind of a request; None for bytes that have none."""
    if isinstance(request, Spoken):
        return request.kind
    return numbers.kind_of(request.data) if numbers.framed(request.data) == len(request.data) else None


def size_of(item: Line) -> int:
    """How many bytes the records of a line have together."""
    request = item.request
    one = len(request.data) if isinstance(request, Exact) else numbers.HEAD + len(numbers.FIELDS[request.kind])
    return one * item.times


def done_answer(words: Sequence[Word], request: Union[Exact, Spoken]) -> Answer:
    """`done`, or `done by PLACE` for a USE."""
    is_use = kind_in(request) == "USE"
    if len(words) == 3 and words[1].text == "by" and is_use:
        return Answer(numbers.DONE, number(words[2], 0, numbers.RULE_PLACES - 1, "the rule"))
    if len(words) == 1 and not is_use:
        return Answer(numbers.DONE, NOTHING_CITED)
    wanted = "`done by` and a rule's place, for a USE" if is_use else "`done`"
    raise Fault(f"the answer is not as this request can have it; expected {wanted}", words[0].column)


def answer_in(words: Sequence[Word], end: int, request: Union[Exact, Spoken]) -> Union[Answer, str]:
    """The answer written behind an arrow."""
    text = " ".join(word.text for word in words)
    if text == TOO_LONG:
        return TOO_LONG
    if words and words[0].text == "done":
        return done_answer(words, request)
    for code in range(1, numbers.LAST_REQUEST_REFUSAL + 1):
        if text == numbers.REFUSALS[code].word:
            return Answer(code, NOTHING_CITED)
    if len(words) != 2:
        at = words[0].column if words else end
        raise Fault(f"{quoted(text)} is no answer; an answer is a code and a cited rule, `done`, a refusal's word, "
                    f"or `{TOO_LONG}`", at)
    code = number(words[0], 0, numbers.LAST_REQUEST_REFUSAL, "code")
    return Answer(code, number(words[1], 0, NOTHING_CITED, "cited rule"))


def line_in(line: int, content: str) -> Optional[Line]:
    """What stands on a line; None if it is blank or all comment."""
    words = cut(content)
    if not words:
        return None
    end = words[-1].column + len(words[-1].text)
    arrows = [place for place, word in enumerate(words) if word.text == ARROW]
    before = words[:arrows[0]] if arrows else words
    behind = words[arrows[0] + 1:] if arrows else []
    arrow = words[arrows[0]].column if arrows else end
    cursor = Cursor(before, arrow)
    times = times_in(cursor)
    request = request_in(cursor)
    answer = answer_in(behind, end, request) if arrows else None
    return Line(line, " ".join(word.text for word in before), request, times, answer, words[0].column, arrow)


def lines_in(source: str, text: str) -> List[Line]:
    """The lines of a text that are not blank or all comment; a fault names the source, the line and the column."""
    found, total = [], 0
    for line, content in enumerate(text.split("\n"), 1):
        try:
            item = line_in(line, content[:-1] if content.endswith("\r") else content)
            total += size_of(item) if item else 0
            if total > MOST_BYTES:
                raise Fault(f"the records up to here have more than {MOST_BYTES} bytes; expected fewer in one file",
                            item.column)
        except Fault as fault:
            raise fault.at(source, line) from None
        if item:
            found.append(item)
    return found


def record_in(text: str) -> bytes:
    """The bytes of one request in numbers, or given as bytes."""
    item = line_in(1, text)
    if item is None or not isinstance(item.request, Exact):
        raise Fault(f"{quoted(text)} is no request in numbers")
    return item.request.data * item.times
