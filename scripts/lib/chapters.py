"""The chapters in which an auditor reads the definitions: a question each, with its files in the order of reading."""
from typing import NamedTuple


class Chapter(NamedTuple):
    """A question, and the files whose definitions it is about, below crates/; a name that ends with / is a folder."""

    question: str
    files: tuple


CHAPTERS = (
    Chapter(
        "Is the promise right?",
        (
            "net_driver/specs/Meaning.antt",
            "net_driver/specs/",
            "net_meaning/specs/Represents.antt",
            "net_normal/specs/Links.antt",
            "net_normal/specs/Flows.antt",
            "net_normal/specs/Sums.antt",
        ),
    ),
    Chapter(
        "Is this the chapter's network?",
        ("net_tree/specs/Syntax.antt", "net_tree/specs/Phrases.antt", "net_meaning/specs/Network.antt"),
    ),
    Chapter(
        "Is this how data fill a model?",
        (
            "net_expr/specs/Worlds.antt",
            "net_sets/specs/Names.antt",
            "net_meaning/specs/World.antt",
            "net_data/specs/Rows.antt",
        ),
    ),
    Chapter(
        "Are these the language's expressions?",
        (
            "net_meaning/specs/Values.antt",
            "net_meaning/specs/Operators.antt",
            "net_expr/specs/Numbers.antt",
            "net_tree/specs/Items.antt",
            "net_tree/specs/Operations.antt",
            "net_sets/specs/Operations.antt",
            "net_sets/specs/Sets.antt",
            "net_sets/specs/Texts.antt",
            "net_sets/specs/Ranges.antt",
        ),
    ),
    Chapter(
        "Are the texts read and written like this?",
        (
            "net_model/specs/GrammarOfDeclarations.antt",
            "net_model/specs/",
            "net_tree/specs/Precedence.antt",
            "net_data/specs/Grammar.antt",
            "net_data/specs/Tests.antt",
            "net_data/specs/Commas.antt",
            "net_lex/specs/Lexing.antt",
            "net_lex/specs/",
            "net_dimacs/specs/",
            "net_normal/specs/Limits.antt",
            "net_check/specs/",
            "net_inst/specs/Lists.antt",
            "net_report/specs/",
            "net_expr/specs/References.antt",
        ),
    ),
)
OTHERS = Chapter("What else is cited?", ("",))


def place_of(file):
    """Returns the chapter that a file below crates/ belongs to, and its place there: an exact name comes first."""
    for number, chapter in enumerate(CHAPTERS):
        if file in chapter.files:
            return number, chapter.files.index(file)
    for number, chapter in enumerate(CHAPTERS):
        for place, name in enumerate(chapter.files):
            if name.endswith("/") and file.startswith(name):
                return number, place
    return len(CHAPTERS), 0


def number_of(chapter):
    """Returns the number of a chapter, counted from 1."""
    return (*CHAPTERS, OTHERS).index(chapter) + 1


def in_order(reading):
    """Yields the chapters of what is read, each with its files in order, and for each file its definitions: those that
    the reading starts from, then the others as the file has them."""
    files = {path: str(path.relative_to(reading.crates)) for path in reading.reached}
    for number, chapter in enumerate((*CHAPTERS, OTHERS)):
        own = sorted((path for path in files if place_of(files[path])[0] == number), key=lambda p: place_of(files[p]))
        if own:
            yield chapter, [(path, sorted(reading.reached[path], key=reading.rank)) for path in own]
