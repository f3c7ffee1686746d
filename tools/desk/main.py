"""The command line of the desk."""

import argparse
import sys
from typing import Callable, Dict, List, Optional, Tuple

from desk import commands, files, grammar, prompt, sentences, speaking
from desk.club import Club, founded
from desk.library import Library, opened
from desk.output import ALL_DONE, Output, complain, guarded

DESCRIPTION = "A club's requests in words, answered in words by the proved board. Without a command: a prompt."
STATUSES = """\
Exit status: 0 all done, 1 something refused or not as expected, 2 usage, or an input that can't be read. A question
about a file, and `save`, pass over refusals that the file itself expects behind an arrow."""
REQUEST = "request"  # what the request of `what-if` is called in messages


def start(library: Library, options: argparse.Namespace) -> Club:
    """The club at the founding, or on the card that is given."""
    return founded(library) if options.card is None else files.read_card(library, options.card)


def club_after(options: argparse.Namespace, name: Optional[str]) -> Tuple[Club, int]:
    """The club after a file of requests in words, and the status of that: answers are told where they surprise."""
    items = lines_of(name) if name is not None else []
    club = start(opened(), options)
    return club, commands.run_silently(club, files.source_name(name or ""), items)


def lines_of(name: str) -> List[grammar.Line]:
    """The lines of a file in words."""
    return grammar.lines_in(files.source_name(name), files.read_text(name))


def run_file(options: argparse.Namespace, out: Output) -> int:
    """desk run FILE."""
    items = lines_of(options.file)
    return commands.run(start(opened(), options), files.source_name(options.file), items, out)


def ask_may(options: argparse.Namespace, out: Output) -> int:
    """desk may FILE."""
    club, status = club_after(options, options.file)
    return max(status, commands.may(club, out))


def ask_show(options: argparse.Namespace, out: Output) -> int:
    """desk show FILE."""
    club, status = club_after(options, options.file)
    return max(status, commands.show(club, out))


def ask_draw(options: argparse.Namespace, out: Output) -> int:
    """desk draw FILE."""
    club, status = club_after(options, options.file)
    return max(status, commands.draw(club, options.svg, out))


def ask_who(options: argparse.Namespace, out: Output) -> int:
    """desk who FILE NAME."""
    name = options.words[0] if len(options.words) == 2 else None
    club, status = club_after(options, name)
    return max(status, commands.who(club, options.words[-1], out))


def ask_what_if(options: argparse.Namespace, out: Output) -> int:
    """desk what-if FILE REQUEST; with a card all words are the request."""
    name, words = (options.words[0], options.words[1:]) if options.card is None else (None, options.words)
    club, status = club_after(options, name)
    return max(status, commands.what_if(club, REQUEST, 1, " ".join(words), out))


def to_bytes(options: argparse.Namespace, out: Output) -> int:
    """desk bytes FILE."""
    items = lines_of(options.file)
    data = speaking.in_bytes(files.source_name(options.file), items, lambda: start(opened(), options))
    if out.is_json:
        out.tell([], {"length": len(data), "bytes": data.hex()})
    else:
        out.raw(data)
    commands.warn_long(len(data))
    return ALL_DONE


def to_words(options: argparse.Namespace, out: Output) -> int:
    """desk words RECORDS."""
    data = files.read_records(options.file)
    lines = speaking.in_words(start(opened(), options), data)
    if out.is_json:
        out.tell([], {"lines": list(lines)})
    else:
        out.tell(lines, None)
    return ALL_DONE


def save_card(options: argparse.Namespace, out: Output) -> int:
    """desk save FILE CARD."""
    files.check_apart(options.file, options.target)
    club, status = club_after(options, options.file)
    return max(status, commands.save(club, options.target, out))


def open_prompt(options: argparse.Namespace, out: Output) -> int:
    """desk alone."""
    return prompt.run(start(opened(), options), out, options.history)


WORK: Dict[Optional[str], Callable[[argparse.Namespace, Output], int]] = {
    None: open_prompt, "run": run_file, "may": ask_may, "who": ask_who, "what-if": ask_what_if, "show": ask_show,
    "draw": ask_draw, "bytes": to_bytes, "words": to_words, "save": save_card,
}


class Parser(argparse.ArgumentParser):
    """A parser whose failed writes are not passed over."""

    def _print_message(self, message: str, file=None) -> None:
        """Help goes to standard output, and what is wrong to standard error."""
        if file is sys.stdout:
            file.write(message)
        else:
            complain(message.rstrip("\n"))


def add_common(parser: argparse.ArgumentParser, default) -> None:
    """The options that every command has."""
    parser.add_argument("--json", action="store_true", default=default,
                        help="answers as JSON, with numbers and words; of `run` a document on each line")
    parser.add_argument("--card", metavar="CARD", default=default, help="begin with the club on this card")


def parser_of() -> argparse.ArgumentParser:
    """The parser of the whole command line."""
    parser = Parser("desk", description=DESCRIPTION, epilog=f"{sentences.all_forms()}\n\n{STATUSES}",
                    allow_abbrev=False, formatter_class=argparse.RawDescriptionHelpFormatter)
    add_common(parser, None)
    parser.add_argument("--history", metavar="FILE", help="keep the lines that are typed at the prompt in this file")
    parts = parser.add_subparsers(dest="command", metavar="COMMAND")

    def part(name: str, about: str) -> argparse.ArgumentParser:
        """A command."""
        found = parts.add_parser(name, help=about, description=about, epilog=STATUSES, allow_abbrev=False)
        add_common(found, argparse.SUPPRESS)
        return found

    words = "a file of requests in words (.club or .case), or - for standard input"
    part("run", "judge each request of a file").add_argument("file", metavar="FILE", help=words)
    for name, about in (("may", "who may do what on which gear"), ("show", "the sheet in words"),
                        ("draw", "the club as DOT, or as SVG")):
        part(name, about).add_argument("file", metavar="FILE", nargs="?", help=f"{words}; not needed with --card")
    parts.choices["draw"].add_argument("--svg", metavar="OUT", help="write an SVG to this file (needs graphviz)")
    who = part("who", "what one object is, and what a member holds and may use")
    who.add_argument("words", metavar="FILE NAME", nargs="+",
                     help="a file in words, not needed with --card, then a name or a number")
    what_if = part("what-if", "what would be answered to a request; nothing is kept")
    what_if.add_argument("words", metavar="FILE REQUEST", nargs="+",
                         help="a file in words, then a request; with --card the request alone")
    part("bytes", "from words to records").add_argument("file", metavar="FILE", help=words)
    records = part("words", "from records to words")
    records.add_argument("file", metavar="RECORDS", help="a file of records, or - for standard input")
    save = part("save", "write the club's card")
    save.add_argument("file", metavar="FILE", help=words)
    save.add_argument("target", metavar="CARD", help="the card to write")
    return parser


def parsed(parser: argparse.ArgumentParser, arguments: Optional[List[str]]) -> argparse.Namespace:
    """The command line, where an option may also stand between the words of `who` and `what-if`."""
    options, more = parser.parse_known_args(arguments)
    if more and (not hasattr(options, "words") or any(word.startswith("-") for word in more)):
        parser.error(f"unrecognized arguments: {' '.join(more)}")
    if more:
        options.words += more
    return options


def work(arguments: Optional[List[str]]) -> int:
    """Reads the command line and does what it says."""
    parser = parser_of()
    options = parsed(parser, arguments)
    count, needed = len(getattr(options, "words", ())), 2 if options.card is None else 1
    if options.command in ("may", "show", "draw") and options.file is None and options.card is None:
        parser.error(f"{options.command}: give a FILE or --card CARD")
    if options.command == "who" and not needed <= count <= 2:
        parser.error("who: give a FILE (or --card CARD) and one NAME")
    if options.command == "what-if" and count < needed:
        parser.error("what-if: give a FILE (or --card CARD) and a REQUEST")
    if options.command and options.history is not None:
        parser.error("--history is for the prompt, which has no command")
    return WORK[options.command](options, Output(bool(options.json)))


def main(arguments: Optional[List[str]] = None) -> int:
    """The exit status of the desk."""
    return guarded(lambda: work(arguments))
