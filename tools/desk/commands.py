"""What the desk does with a club, for the command line and the prompt alike. Each returns its exit status."""

from typing import List, NamedTuple, Optional, Union

from desk import drawing, files, grammar, numbers, questions
from desk.club import Club
from desk.grammar import Line
from desk.numbers import Answer, TOO_LONG
from desk.output import ALL_DONE, Output, SOME_REFUSED, complain
from desk.questions import judged_data
from desk.running import Judged, Reading


class Tally(NamedTuple):
    """What came of some records."""
    done: int = 0
    refused: int = 0
    differing: int = 0

    def with_answer(self, judged: Judged) -> "Tally":
        """The same with one more record."""
        is_done = judged.answer.code == numbers.DONE
        return Tally(self.done + is_done, self.refused + (not is_done), self.differing + (judged.is_expected is False))

    def status(self) -> int:
        """1 if something was refused or is not as expected."""
        return SOME_REFUSED if self.refused or self.differing else ALL_DONE


def counted(count: int, word: str) -> str:
    """A count with its word."""
    return f"{count} {word}" if count == 1 else f"{count} {word}s"


def answer_shown(answer: Union[Answer, str]) -> str:
    """An answer as numbers and a word."""
    return TOO_LONG if answer == TOO_LONG else f"{answer.code} {answer.cited} ({numbers.word_of(answer.code)})"


def record_line(judged: Judged) -> str:
    """The answer to a record in one line, with the request where the answer alone does not tell it."""
    is_told = judged.answer.code == numbers.DONE and judged.answer.cited == numbers.NOTHING_CITED
    request = "" if is_told or len(judged.item.text) > 200 else f"  # {judged.item.text}"
    return f"record {judged.index}: {judged.words}{request}"


def record_data(judged: Judged) -> dict:
    """The same as data."""
    data = {"record": judged.index, "line": judged.item.line, **judged_data(judged), "bytes": judged.record.hex()}
    if judged.is_expected is not None:
        data["expected"] = list(judged.item.answer)
    return data


def tell_records(reading: Reading, found, out: Output, tally: Tally, answered: set) -> Tally:
    """Tells records as they are judged, and where an answer is not the expected one."""
    for judged in found:
        tally = tally.with_answer(judged)
        answered.add(judged.item.line)
        out.tell([record_line(judged)], record_data(judged))
        if judged.is_expected is False:
            differs(reading.source, judged.item, answer_shown(judged.answer))
    return tally


def differs(source: str, item: Line, came: str) -> None:
    """Says that the answer to a line is not the expected one."""
    complain(f"{source}:{item.line}:{item.arrow}: came {came}; expected {answer_shown(item.answer)}")


def unmet(source: str, items: List[Line], answered: set, size: int) -> int:
    """How many expected answers met no record, each told; `too long` is met by a stream that is."""
    count = 0
    for item in items:
        if item.answer == TOO_LONG and size <= numbers.BOARD_BYTES:
            differs(source, item, f"{size} bytes, which the board takes")
            count += 1
        elif isinstance(item.answer, Answer) and item.line not in answered:
            differs(source, item, "nothing: no record begins here")
            count += 1
    return count


def warn_long(size: int) -> None:
    """Says that the board would not take as many bytes at once."""
    if size > numbers.BOARD_BYTES:
        complain(f"desk: the records have {size} bytes, and the board takes {numbers.BOARD_BYTES} at once: "
                 f"it would answer `{TOO_LONG}`")


def run(club: Club, source: str, items: List[Line], out: Output) -> int:
    """Judges all records of some lines and tells the answers."""
    reading, tally, answered = Reading(club, source), Tally(), set()
    for item in items:
        tally = tell_records(reading, reading.take(item), out, tally, answered)
    tally = tell_records(reading, reading.end(), out, tally, answered)
    size = sum(grammar.size_of(item) for item in items)
    tally = tally._replace(differing=tally.differing + unmet(source, items, answered, size))
    tell_end(tally, reading.began.line if reading.is_torn else None, out)
    warn_long(size)
    if tally.differing:
        complain(f"desk: {counted(tally.differing, 'answer')} not as expected")
    return tally.status()


def run_silently(club: Club, source: str, items: List[Line]) -> int:
    """Judges all records of some lines for a question about what they leave. Told is an answer that is not as expected,
    and how many were refused that were not expected to be."""
    reading, answered, tally, surprises = Reading(club, source), set(), Tally(), 0
    for found in (*(reading.take(item) for item in items), reading.end()):
        for judged in found:
            answered.add(judged.item.line)
            tally = tally.with_answer(judged)
            surprises += judged.answer.code != numbers.DONE and judged.is_expected is None
            if judged.is_expected is False:
                differs(source, judged.item, answer_shown(judged.answer))
    size = sum(grammar.size_of(item) for item in items)
    tally = tally._replace(differing=tally.differing + unmet(source, items, answered, size))
    if surprises:
        complain(f"desk: {source}: {counted(surprises, 'request')} refused; `desk run` tells why")
    return SOME_REFUSED if surprises or tally.differing else ALL_DONE


def tell_end(tally: Tally, torn: Optional[int], out: Output) -> None:
    """Tells the count of all records, and the line where a torn place ended the reading."""
    count = tally.done + tally.refused
    lines = [f"the reading ends in line {torn}: nothing behind a torn place is judged"] if torn else []
    lines.append(f"{counted(count, 'record')}: {tally.done} done, {tally.refused} refused")
    out.tell(lines, {"records": count, **tally._asdict(), "torn": torn})


def one_line(club: Club, source: str, item: Line, out: Output, count: int) -> Tally:
    """Judges the records of one line, a stream of its own, from an index on; for the prompt."""
    reading = Reading(club, source, count)
    tally = tell_records(reading, reading.take(item), out, Tally(), set())
    return tell_records(reading, reading.end(), out, tally, set())


def may(club: Club, out: Output) -> int:
    """Who may do what on which gear."""
    out.tell(questions.may_lines(club), questions.may_data(club))
    return ALL_DONE


def who(club: Club, name: str, out: Output) -> int:
    """What one object is, and has."""
    which = questions.object_named(club, name)
    out.tell(questions.who_lines(club, which), questions.who_data(club, which))
    return ALL_DONE


def what_if(club: Club, source: str, line: int, text: str, out: Output) -> int:
    """The answer to a request, which is not kept."""
    tally = Tally()
    for judged in questions.what_if(club, source, line, text):
        tally = tally.with_answer(judged)
        out.tell([questions.if_line(club, judged)], questions.if_data(club, judged))
        if judged.is_expected is False:
            differs(source, judged.item, answer_shown(judged.answer))
    return tally.status()


def show(club: Club, out: Output) -> int:
    """The sheet in words."""
    out.tell(questions.show_lines(club), questions.show_data(club))
    return ALL_DONE


def draw(club: Club, svg: Optional[str], out: Output) -> int:
    """The club as DOT, or as SVG in a file."""
    if svg is None:
        text = drawing.dot(club)
        out.tell(text.splitlines(), {"dot": text})
        return ALL_DONE
    drawing.write_svg(club, svg)
    out.tell([f"the club is drawn in {svg}"], {"svg": svg})
    return ALL_DONE


def save(club: Club, card: str, out: Output) -> int:
    """Writes the club's card."""
    length = files.write_card(club, card)
    out.tell([f"done: the card {card} has {counted(length, 'byte')}"],
             {"code": numbers.DONE, "word": numbers.word_of(numbers.DONE), "length": length, "card": card})
    return ALL_DONE
