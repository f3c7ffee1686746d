"""The prompt: each line is a request or a question about the club at hand, and is answered at once."""

import sys
from typing import Iterator, List, Optional

from desk import commands, files, numbers, sentences, tokens
from desk.club import Club
from desk.commands import Tally, counted
from desk.faults import Fault
from desk.grammar import line_in
from desk.output import ALL_DONE, CANT_BE_READ, Output, complain

try:
    import readline
except ImportError:  # some builds of Python lack it: the prompt is then without history and completion
    readline = None

PROMPT = "desk> "
GREETING = "A club at hand: `help` tells what can be typed, `quit` ends."
SOURCE = files.STANDARD_INPUT
MOST_LINE = files.MOST_TEXT
HELP = f"""{sentences.all_forms()}
Questions: may, who NAME, what-if REQUEST, show, draw, draw SVG
The club on a card: save CARD, load CARD
quit, or the end of the input, ends the desk"""


class Prompt:
    """A club at hand, and what came of the lines so far."""

    def __init__(self, club: Club, out: Output):
        self.club = club
        self.out = out
        self.tally = Tally()
        self.line = 0
        self.status = ALL_DONE

    # What a line does.

    def take(self, data: bytes) -> bool:
        """Answers a line; true if it is the last. An error in it does not end the prompt."""
        self.line += 1
        try:
            text = files.decoded(SOURCE, data, self.line).rstrip("\r\n")
            words = [word.text for word in tokens.cut(text)]
            if words == ["quit"]:
                return True
            if words and words[0] in tokens.COMMANDS:
                self.question(words[0], text.partition("#")[0].replace(words[0], " " * len(words[0]), 1))
            elif words:
                self.request(text)
        except Fault as fault:
            complain(fault.told())
            self.status = CANT_BE_READ
        sys.stdout.flush()
        return False

    def request(self, text: str) -> None:
        """Judges a request."""
        try:
            item = line_in(self.line, text)
        except Fault as fault:
            raise fault.at(SOURCE, self.line) from None
        found = commands.one_line(self.club, SOURCE, item, self.out, self.tally.done + self.tally.refused)
        self.tally = Tally(*(old + new for old, new in zip(self.tally, found)))

    def question(self, word: str, behind: str) -> None:
        """Answers a question about the club at hand; what stands behind its word keeps its columns."""
        rest = behind.strip()
        needs = {"who": "a name", "what-if": "a request", "save": "the name of a card", "load": "the name of a card"}
        if word in needs and not rest:
            raise Fault(f"`{word}` alone; expected {needs[word]} behind it").at(SOURCE, self.line)
        if rest and word in ("may", "show", "help", "quit"):
            raise Fault(f"{tokens.quoted(rest)} behind `{word}`; expected nothing").at(SOURCE, self.line)
        if word == "what-if":
            commands.what_if(self.club, SOURCE, self.line, behind, self.out)
        elif word == "who":
            commands.who(self.club, rest, self.out)
        elif word == "draw":
            commands.draw(self.club, rest or None, self.out)
        elif word == "save":
            commands.save(self.club, rest, self.out)
        elif word == "load":
            self.load(rest)
        elif word == "help":
            self.out.tell([HELP], {"help": HELP})
        else:
            {"may": commands.may, "show": commands.show}[word](self.club, self.out)

    def load(self, card: str) -> None:
        """The club at hand is now the one on a card."""
        self.club = files.read_card(self.club.library, card)
        count = len(self.club.objects())
        self.out.tell([f"done: the club on {card} has {counted(count, 'object')}"],
                      {"code": numbers.DONE, "word": numbers.word_of(numbers.DONE), "card": card, "objects": count})

    # Completion.

    def candidates(self, words: List[str]) -> List[str]:
        """What can stand behind these words of a line."""
        names = self.club.names.all()
        if not words:
            return [*tokens.COMMANDS, *names, *numbers.KINDS, "bytes", "repeat"]
        if words[0] == "what-if":
            return self.candidates(words[1:])
        if words[0] == "who":
            return names
        if len(words) == 1 and words[0] in self.club.names.bound:
            return list(numbers.KINDS)
        return [*names, *numbers.SORTS[1:], *numbers.WARRANTS[1:], *numbers.OPERATIONS, *tokens.PLAIN_WORDS]

    def complete(self, text: str, state: int) -> Optional[str]:
        """The candidates for the word being typed, one by one, as readline asks for them."""
        before = readline.get_line_buffer()[:readline.get_begidx()]
        words = [word.text for word in tokens.cut(before)]
        found = sorted(word for word in self.candidates(words) if word.startswith(text))
        return found[state] + " " if state < len(found) else None

    # Lines, from wherever they come.

    def answer_all(self, lines: Iterator[bytes]) -> int:
        """Answers line after line; what they came to: 2 if one could not be read, 1 if something was refused."""
        for data in lines:
            if self.take(data):
                break
        return self.status or self.tally.status()


def typed_lines() -> Iterator[bytes]:
    """Lines from a terminal. Ctrl-C drops the line that is being typed, and the club stays at hand."""
    while True:
        try:
            line = input(PROMPT)
        except EOFError:
            print()
            return
        except KeyboardInterrupt:
            print()
            continue
        yield line.encode("utf-8", "surrogateescape")


def streamed_lines() -> Iterator[bytes]:
    """Lines from standard input where that is no terminal."""
    if sys.stdin is None:
        raise Fault(f"{SOURCE}: it is closed; expected requests in words")
    while True:
        try:
            data = sys.stdin.buffer.readline(MOST_LINE + 1)
        except OSError as error:
            raise Fault(f"{SOURCE}: it can't be read: {error.strerror or error}") from None
        if len(data) > MOST_LINE:
            raise Fault(f"{SOURCE}: a line has more than {MOST_LINE} bytes; expected a shorter one")
        if not data:
            return
        yield data


def at_terminal(prompt: Prompt, history: Optional[str]) -> int:
    """Answers what is typed, with history and completion where Python has readline."""
    print(GREETING)
    if readline is None:
        return prompt.answer_all(typed_lines())
    readline.set_completer(prompt.complete)
    readline.set_completer_delims(" \t\n")
    readline.parse_and_bind("tab: complete")
    read_history(history)
    try:
        return prompt.answer_all(typed_lines())
    finally:
        write_history(history)


def run(club: Club, out: Output, history: Optional[str]) -> int:
    """The prompt at a terminal, and the same without its text elsewhere."""
    prompt = Prompt(club, out)
    if sys.stdin is not None and sys.stdin.isatty():
        return at_terminal(prompt, history)
    return prompt.answer_all(streamed_lines())


def read_history(name: Optional[str]) -> None:
    """The lines of earlier times, if their file is there."""
    if name:
        try:
            readline.read_history_file(name)
        except FileNotFoundError:
            pass
        except OSError as error:
            raise Fault(f"{name}: it can't be read: {error.strerror or error}") from None


def write_history(name: Optional[str]) -> None:
    """Keeps the lines for the next time."""
    if name:
        try:
            readline.write_history_file(name)
        except OSError as error:
            complain(f"desk: {name}: it can't be written: {error.strerror or error}")
