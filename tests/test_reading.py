"""The text of scripts/reading: the definitions of a small tree, and those of this repository."""
import re
import subprocess
import sys

import pytest

from lib import chapters, definitions, library_words, reading_page, reading_text
from support import TOP

CLAIM = """-- What a compiler promises.
use Rattle.std.specs.Prelude.{ℕ, List, ◌≡◌}
use Rattle.ground.specs.Parts.{Whole, part, ◌∪◌}
use Rattle.ground.specs.declared.shape.Shape.{Shape}
use Rattle.ground.specs.declared.shape.Colour.TheVariants as colours
use Rattle.claim.specs.Code.{computed}

-- a shape is right
-- and whole
pub record IsRight (s : Shape) : Type 0 where
  pub whole : Whole s
  pub same : part s ≡ computed s

abbrev pub IsRed : Shape → Type 0
IsRed s = s.colour ≡ colours.Red

-- nothing cites this
abbrev pub unused : ℕ
unused = 0
"""
CODE = """use Rattle.ground.specs.declared.shape.Shape.{Shape}
use Rattle.ground.specs.Parts.{part}

abbrev pub computed : Shape → Shape
computed s = helper (part s)

abbrev pub helper : Shape → Shape
helper s = s
"""
PARTS = """use Rattle.ground.specs.declared.shape.Shape.{Shape}

abbrev pub part : Shape → Shape
part s = s

mutual
  abbrev pub Whole : Shape → Type 0
  Whole s = Half s

  abbrev pub Half : Shape → Type 0
  Half s = only_of_whole s ∪ Whole s

abbrev pub only_of_whole : Shape → Type 0
only_of_whole s = Unit {0}

infixr 20 ◌∪◌
abbrev pub ◌∪◌ : Type 0 → Type 0 → Type 0
P ∪ Q = P
"""
SHAPE = """use crate::colour::{Colour};

/// A shape.
#[derive(Drop)]
pub struct Shape {
    /// Its colour.
    pub colour: Colour,
    pub size: Size,
    pub ghost small: { size ≤ 3 },
}

pub struct Unrelated {
    pub other: u32,
}

/// A size, which contracts see as a number.
pub struct Size(u8);

impl Model for Size {
    ghost Value = { ℕ };

    ghost view = { λ s. s.0 };
}
"""
COLOUR = """/// A colour.
pub enum Colour {
    /// Like fire.
    Red,
    Mixed(Shade),
}

pub struct Shade {
    pub depth: u8,
}
"""
STARTS = ["claim/specs/Claim.antt:IsRight", "claim/specs/Claim.antt:IsRed"]
FILES = {
    "claim/specs/Claim.antt": CLAIM,
    "claim/specs/Code.antt": CODE,
    "ground/specs/Parts.antt": PARTS,
    "ground/src/shape.rt": SHAPE,
    "ground/src/colour.rt": COLOUR,
}
PLACE = re.compile(r"^\[([\w/]+\.antt):(\d+)-(\d+)\] (.*)$", re.M)


@pytest.fixture
def crates(tmp_path):
    for name, text in FILES.items():
        (tmp_path / name).parent.mkdir(parents=True, exist_ok=True)
        (tmp_path / name).write_text(text, encoding="utf-8")
    return tmp_path


def names(reading):
    return {name for blocks in reading.reached.values() for block in blocks for name in block.names}


def text_of(starts, reading, twice):
    return "\n".join(reading_text.Text(starts, reading, twice, False).lines())


def test_what_is_cited(crates):
    """An operator, a `mutual` and the definitions of other files are followed; what nothing cites is not."""
    assert names(definitions.read(STARTS, (), crates)) == {
        "IsRight",
        "IsRed",
        "computed",
        "helper",
        "part",
        "Whole",
        "Half",
        "only_of_whole",
        "◌∪◌",
    }
    assert names(definitions.read(STARTS[1:], (), crates)) == {"IsRed"}


@pytest.mark.parametrize(
    "without, missing",
    (
        (["computed"], {"computed", "helper"}),
        (["Half"], {"Whole", "Half", "only_of_whole", "◌∪◌"}),
        (["part"], {"part"}),
        (["claim/specs/Code.antt:helper", "◌∪◌"], {"helper", "◌∪◌"}),
    ),
)
def test_without(crates, without, missing):
    """A definition is left out with what only it cites: `part` is cited twice, so it stays if one of them is left out."""
    complete = definitions.read(STARTS, (), crates)
    assert names(definitions.read(STARTS, without, crates)) == names(complete) - missing


@pytest.mark.parametrize("starts, without", ((["claim/specs/Claim.antt:Right"], []), (STARTS, ["unused"])))
def test_unknown_names(crates, starts, without):
    with pytest.raises(ValueError, match="Right|unused"):
        definitions.read(starts, without, crates)


def test_names_with_two_definitions(crates):
    (crates / "claim/specs/Code.antt").write_text(CODE.replace("helper", "only_of_whole"), encoding="utf-8")
    both = "ground/specs/Parts.antt:only_of_whole, claim/specs/Code.antt:only_of_whole"
    with pytest.raises(ValueError, match=both):
        definitions.read(STARTS, ["only_of_whole"], crates)
    exact = definitions.read(STARTS, ["claim/specs/Code.antt:only_of_whole"], crates)
    assert [block.names for block in exact.reached[crates / "claim/specs/Code.antt"]] == [["computed"]]
    assert "only_of_whole" in names(exact)


def test_small_text(crates):
    """Each definition occurs once, with its comment and its lines: file by file as they are cited, and in a file those
    that the reading starts from, then as the file has them. The comment of a file is above its definitions."""
    reading = definitions.read(STARTS, (), crates)
    text = text_of(STARTS, reading, set())
    assert [place.groups()[:3] for place in PLACE.finditer(text)] == [
        ("claim/specs/Claim.antt", "8", "12"),
        ("claim/specs/Claim.antt", "14", "15"),
        ("ground/specs/Parts.antt", "3", "4"),
        ("ground/specs/Parts.antt", "6", "11"),
        ("ground/specs/Parts.antt", "13", "14"),
        ("ground/specs/Parts.antt", "16", "18"),
        ("claim/specs/Code.antt", "4", "5"),
        ("claim/specs/Code.antt", "7", "8"),
    ]
    assert text.index("-- What a compiler promises.") < text.index("-- a shape is right\n-- and whole\npub record")
    assert "nothing cites this" not in text


def test_types_of_the_code(crates):
    """A type is printed after the first definition that cites it, followed by the types of its fields."""
    text = text_of(STARTS, definitions.read(STARTS, (), crates), set())
    order = ["pub record IsRight", "[ground/src/shape.rt:3]", "[ground/src/colour.rt:1]", "[ground/src/colour.rt:8]"]
    order += ["[ground/src/shape.rt:16]", "ghost Value = { ℕ };", "ghost view = { λ s. s.0 };", "IsRed : Shape"]
    assert [text.count(part) for part in order] == [1] * len(order)
    assert sorted(order, key=text.index) == order
    assert "/// Like fire." in text and "derive" not in text and "Unrelated" not in text


def test_marks(crates):
    """Stated twice is what exactly one of two clauses cites."""
    twice = definitions.stated_twice(STARTS, ["claim/specs/Code.antt:computed"], crates)
    text = text_of(STARTS, definitions.read(STARTS, (), crates), twice)
    once = {(file, first) for file, first, _, mark in PLACE.findall(text) if mark == reading_text.ONCE}
    assert once == {("claim/specs/Code.antt", "4"), ("claim/specs/Code.antt", "7"), ("ground/specs/Parts.antt", "3")}
    assert {mark for *_, mark in PLACE.findall(text)} == {reading_text.ONCE, reading_text.TWICE}


def test_missing_toolchain(crates, monkeypatch):
    monkeypatch.setattr(library_words, "libraries_folder", lambda: None)
    text = text_of(STARTS, definitions.read(STARTS, (), crates), set())
    assert re.search(r"toolchain is missing .*: ◌≡◌\.", text.replace("\n", " "))


def test_words_of_the_library():
    """A word that the library passes on is found where it is defined; a constructor is shown with its type."""
    folder = library_words.libraries_folder()
    if folder is None:
        pytest.skip("the Rattle toolchain is not on the PATH")
    library = library_words.Library(folder)
    lines = {
        name: library.find(module, name)[2]
        for module, name in (
            ("Rattle.std.specs.List", "AllZip"),
            ("Rattle.std.specs.Prelude", "◌++◌"),
            ("Rattle.std.specs.Prelude", "negsuc"),
            ("Rattle.std.specs.Prelude", "Option"),
        )
    }
    assert any("AllZip" in line and line.endswith("= R x y × AllZip R xs ys") for line in lines["AllZip"])
    assert any("[] ++ ys = ys" in line for line in lines["◌++◌"])
    assert any("data ℤ" in line for line in lines["negsuc"]) and "pub enum Option<T> {" in lines["Option"]
    assert library.find("Rattle.std.specs.Prelude", "ℕ") is None


@pytest.fixture(scope="module")
def whole():
    """Returns what the clauses `means` cite, what is stated twice, and the text."""
    reading, twice = definitions.read(definitions.MEANS), definitions.stated_twice()
    return reading, twice, "\n".join(reading_text.Text(definitions.MEANS, reading, twice, True).lines())


BY_A_TYPE = "cited by this type"


def own_places(text):
    """Returns the places of the definitions without those that only types cite: file, lines and mark."""
    return [place for place in PLACE.findall(text) if place[3] != BY_A_TYPE]


def test_each_definition_once(whole):
    reading, _, text = whole
    places = [(file, int(first)) for file, first, *_ in own_places(text)]
    blocks = [block for blocks in reading.reached.values() for block in blocks]
    wanted = {(str(block.path.relative_to(definitions.CRATES)), block.first) for block in blocks}
    assert len(places) == len(set(places)) and set(places) == wanted
    assert all("\n".join(block.texts()) + "\n" in text for block in blocks)


def test_definitions_that_types_cite(whole):
    """The numbers of a link count up, which its ghost field says; such a definition is printed once, after its type."""
    _, _, text = whole
    types = [place[:2] for place in PLACE.findall(text) if place[3] == BY_A_TYPE]
    assert types and len(types) == len(set(types))
    assert not set(types) & {place[:2] for place in own_places(text)}
    link = text.index("pub struct Link {")
    assert text.index("pub ghost numbered: { CountUp numbers.items }") > link
    assert text.count("abbrev pub CountUp : ") == 1 and text.index("abbrev pub CountUp : ") > link


def test_order_of_the_whole(whole):
    """The promise comes first, then the two records that state it, and the chapters are in order."""
    _, _, text = whole
    parts = [
        "feasible flows",
        "Notation\n",
        "pub record IsCompilation",
        "pub record IsSolution",
        "pub record MeanNetwork",
    ]
    assert sorted(parts, key=text.index) == parts
    heads = [f"\n{number}. {chapter.question}" for number, chapter in enumerate(chapters.CHAPTERS, 1)]
    assert [text.count(head) for head in heads] == [1] * len(heads) and sorted(heads, key=text.index) == heads
    files = list(dict.fromkeys(file for file, *_ in own_places(text)))
    assert [chapters.place_of(file)[0] for file in files] == sorted(chapters.place_of(file)[0] for file in files)


def test_marks_of_the_whole(whole):
    """Either mark, never both; their lines sum up to all. What the code's clauses cite too is stated once."""
    reading, twice, text = whole
    value = definitions.read()
    marks = {(definitions.CRATES / file, int(first)): mark for file, first, _, mark in own_places(text)}
    assert {place for place, mark in marks.items() if mark == reading_text.ONCE} == set(marks) & value.places()
    last = text.splitlines()[-1]
    all_lines, twice_lines, once_lines = (
        int(re.search(rf"(\d+) lines{what}", last)[1])
        for what in (",", f" {reading_text.TWICE}", f" {reading_text.ONCE}")
    )
    assert all_lines == twice_lines + once_lines == sum(row[2] for row in reading.rows())
    assert set(marks) - value.places() == set(marks) & twice


def test_types_of_the_whole(whole):
    """Of each type that a printed definition imports and cites, the declaration is printed once."""
    reading, _, text = whole
    cited = set()
    for path, blocks in reading.reached.items():
        body = "\n".join(block.body() for block in blocks)
        words = set(re.findall(r"(?<![\w.])[A-Za-z_]\w*", body))
        cited |= {made[2] for local, made in reading.spec(path).types.items() if local in words}
    assert {"Compiled", "Outcome", "Token", "Role", "BinOp"} <= cited
    for name in cited:
        assert len(re.findall(rf"(?m)^pub (?:struct|enum) {name}\b", text)) == 1


def test_run_without_the_clauses_value():
    """What the record of a run says by the meaning of its inputs is what the clauses `means` cite, and the run."""
    start = ["net_driver/specs/Runs.antt:IsSolveRun"]
    reading = definitions.read(start, ["IsSolved", "IsRejection"])
    added = {path.name for path, _ in reading.places() - definitions.read(definitions.MEANS).places()}
    assert "Runs.antt" in added and not {"IsSolved", "IsBuilt", "IsRejection"} & names(reading)
    assert not any(path.parent.parent.name in ("net_bind", "net_linear") for path in reading.reached)


def test_calls():
    """An unknown name is an error on standard error; the text ends with the totals of the counts."""
    calls = [["--without", "IsNothingOfThis"], [*definitions.MEANS, "--text"], definitions.MEANS]
    wrong, text, counts = (
        subprocess.run([sys.executable, TOP / "scripts" / "reading", *call], capture_output=True, encoding="utf-8")
        for call in calls
    )
    assert (wrong.returncode, wrong.stdout) == (1, "") and "IsNothingOfThis" in wrong.stderr
    assert text.returncode == counts.returncode == 0
    assert text.stdout.splitlines()[-1].startswith(counts.stdout.splitlines()[-1])


def test_page_and_its_errors():
    """The page has the numbers that are counted; a wrong one, a missing row and a missing heading are errors."""
    page = reading_page.PAGE.read_text(encoding="utf-8")
    assert not list(reading_page.errors_in(page))
    row = next(line for line in page.splitlines() if "[`Represents.antt`]" in line)
    cut = reading_page.ROW.match(row)
    for old, new, error in (
        (cut[0], f"{cut[1]} | 1{cut[5]} |", "not up to date"),
        (row + "\n", "", f"no row of a chapter has .*:{cut[3]}"),
        (row, row + "\n" + row, "it has a row already"),
        (f"`{cut[3]}` to", "`NoSuchDefinition` to", "NoSuchDefinition"),
        ("`not_true_of_three`", "`not_true_of_four`", "not_true_of_four"),
        (
            f"### 2. {chapters.CHAPTERS[1].question}",
            "### 2. Is it?",
            f"no heading '{re.escape(chapters.CHAPTERS[1].question)}'",
        ),
    ):
        assert old in page and re.search(error, "\n".join(reading_page.errors_in(page.replace(old, new))))
