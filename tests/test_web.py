"""How scripts/web makes the page: retargeting, the bundle of scripts, documents and links. The page itself is tested by
scripts/check_web."""

import pathlib
import re

import pytest

from lib import ci  # which makes the modules of web/ importable
from support import TOP
from web.build import markdown, module, outputs, page, retarget

MODULE = """target datalayout = "e-m:e-p270:32:32-p271:32:32-p272:64:64-i64:64-i128:128-f80:128-n8:16:32:64-S128"
target triple = "x86_64-unknown-linux-gnu"
@text = private unnamed_addr constant [1 x i8] c"(", align 1
@pair = private unnamed_addr constant <{ ptr, [8 x i8] }> <{ ptr @text, [8 x i8] c"\\01\\00\\00\\00\\00\\00\\00\\00" }>, align 8
define i64 @f(ptr noundef %a) #0 {
  %slot = alloca ptr, align 8
  %both = load { ptr, i64 }, ptr %a, align 8
  %where = ptrtoaddr ptr %a to i64
  ret i64 %where
}
attributes #0 = { nounwind "probe-stack"="inline-asm" "target-cpu"="x86-64" }
"""


def test_pointers_of_64_bits_change_only_the_target():
    made = retarget.retargeted(MODULE, 64)
    assert 'target triple = "wasm64-unknown-unknown"' in made and "e-p:64:64" in made
    assert made.split("@text")[1].split("attributes")[0] == MODULE.split("@text")[1].split("attributes")[0]
    assert "target-cpu" not in made and "probe-stack" not in made


def test_pointers_of_32_bits_keep_slots_of_eight_bytes():
    made = retarget.retargeted(MODULE, 32)
    assert "%slot = alloca [8 x i8], align 8" in made and "ptrtoint ptr %a" in made
    assert "<{ ptr, [4 x i8], [8 x i8] }> <{ ptr @text, [4 x i8] zeroinitializer, [8 x i8]" in made
    # The second field of the pair is at its 64-bit offset.
    assert re.search(r"%both.at1 = getelementptr i8, ptr %a, i64 8\n +%both.part1 = load i64, ptr %both.at1", made)


@pytest.mark.parametrize(
    "line",
    [
        "  store { ptr, i64 } %both, ptr %a, align 8",
        "  %x = load [2 x i64], ptr %a, align 8",
        "  %x = load { { ptr, i64 }, i64 }, ptr %a, align 8",
        '  call void asm sideeffect "nop", ""()',
        "  call void @llvm.x86.sse2.pause()",
        "@counter = global i64 0, align 8",
        "@list = private constant [2 x ptr] [ptr @text, ptr @text], align 8",
    ],
)
def test_an_unknown_form_is_rejected(line):
    text = f"{MODULE}{line}\n" if line.startswith("@") else MODULE.replace("  ret ", f"{line}\n  ret ")
    with pytest.raises(retarget.Unknown):
        retarget.retargeted(text, 32)


def test_a_module_with_two_targets_is_rejected():
    with pytest.raises(retarget.Unknown):
        retarget.retargeted(MODULE + 'target triple = "x86_64-unknown-linux-gnu"\n', 64)


@pytest.fixture(scope="module")
def made():
    return page.page(b"\0asm", "1.2.3", "the notices <of> libraries")


def test_the_page_is_the_same_twice_and_one_file(made):
    assert made == page.page(b"\0asm", "1.2.3", "the notices <of> libraries")
    head = made.partition("<script")[0]
    assert not re.search(r"(?:src|href)=.?(?:https?:|//)", made)
    assert (
        "default-src 'none'" in head and "connect-src" not in head and "netflow 1.2.3" in made and "&lt;of&gt;" in made
    )


def test_the_page_has_each_error_and_each_solved_example(made):
    errors = (TOP / "docs" / "reference" / "errors.md").read_text(encoding="utf-8")
    for code in re.findall(r"(?m)^## (E\d\d) ", errors):
        assert f'"{code}": "' in made
    for folder in (TOP / "examples").iterdir():
        names = [folder / f"{folder.name}.mod", folder / f"{folder.name}.dat", folder / "solve.txt"]
        assert not all(it.exists() for it in names) or f'"{folder.name}": {{' in made


def test_links_of_the_page_lead_to_anchors(made):
    page.check_links(made)
    with pytest.raises(page.Wrong):
        page.check_links(made + '<a href="#nowhere">')
    assert '<a href="#modelling-no-upper-limit">' in made and 'id="modelling-no-upper-limit"' in made


def test_markdown():
    document = markdown.Document({"other.md": "#other"}.get, "here")
    text = "## A *b*, c\n\nSee [it](other.md) or [that](more.md): `[x](y)` **bold** a < b\n\n- one\n  - two\n\n| h |\n|---|\n| `<` |"
    made = document.rendered(text)
    assert made.startswith('<h3 id="here-a-b-c">A <em>b</em>, c</h3>')
    assert '<p>See <a href="#other">it</a> or that: <code>[x](y)</code> <strong>bold</strong> a &lt; b</p>' in made
    assert "<ul><li>one<ul><li>two</li></ul></li></ul>" in made and "<td><code>&lt;</code></td>" in made


def test_a_script_that_imports_what_is_not_there_is_rejected(tmp_path, monkeypatch):
    monkeypatch.setattr(page, "PAGE", tmp_path)
    (tmp_path / "one.mjs").write_text("import { there } from './two.mjs';\nthere();\n", encoding="utf-8")
    (tmp_path / "two.mjs").write_text("export const there = () => 1;\n", encoding="utf-8")
    assert page.script_of("one") == "'use strict';\nconst there = () => 1;\nthere();\n"
    for text in ("export const other = 1;\n", "export default 1;\n", "export const there = 1;\nconst there = 2;\n"):
        (tmp_path / "two.mjs").write_text(text, encoding="utf-8")
        with pytest.raises(page.Wrong):
            page.script_of("one")


def test_outputs_are_of_their_sources(tmp_path, monkeypatch):
    source = tmp_path / "source"
    monkeypatch.setattr(outputs, "toolchain", lambda: "kit-1")
    monkeypatch.setattr(outputs, "OUT", tmp_path)
    monkeypatch.setattr(outputs, "TOP", tmp_path)
    monkeypatch.setattr(outputs, "SOURCES", {"PAGES": (lambda: [source], ("made",), ("--page",))})
    source.write_bytes(b"old")
    assert outputs.update() == ("--page",)
    outputs.note_sources("PAGES")
    assert "run scripts/web --page" in outputs.complaint()
    pathlib.Path(tmp_path, "made").touch()
    assert outputs.update() is None and outputs.complaint() is None
    monkeypatch.setattr(outputs, "toolchain", lambda: "kit-2")
    assert outputs.update() == ("--page",)
    # Where no toolchain is installed, the outputs of any are taken.
    monkeypatch.setattr(outputs, "toolchain", lambda: "")
    assert outputs.update() is None
    source.write_bytes(b"new")
    assert outputs.update() == ("--page",)


class StaticLibrary:
    """A crate as `rt` describes it, in a folder."""

    def __init__(self, folder, is_static=True):
        self.folder, self.is_static = folder, is_static

    def words(self, flags):
        return ["--crate-name", "net_web", "--logic-built", "logic", *flags, "--links", "net_web="]


def test_the_gate_keeps_the_check_of_a_static_library():
    words = ["check", "--crate-name", "net_web"]
    assert ci.keeping(StaticLibrary("there"), words) == [*words, "-o", "there/out/checked"]
    for crate, others in (
        (StaticLibrary("there", False), words),
        (StaticLibrary("there"), ["check", "--test"]),
        (StaticLibrary("there"), ["check", "-o", "elsewhere"]),
        (StaticLibrary("there"), ["build", "--crate-name", "net_web"]),
    ):
        assert ci.keeping(crate, others) == others


def test_the_library_is_built_of_a_check_that_is_kept(tmp_path):
    crate, name = StaticLibrary(tmp_path), ["--crate-name", "net_web"]
    proof = [*crate.words(["--jobs", "2"]), "--incremental", "out/incremental"]
    assert module.proofs(crate) == [proof]
    checked = tmp_path / "out" / "checked"
    checked.mkdir(parents=True)
    assert module.proofs(crate) == [[*name, "--links", "net_web=", "--crate-checked", checked], proof]


def test_a_check_that_is_refused_is_made_again(tmp_path, capsys):
    """`test` stands for rattle: it has status 0 if both words are the same."""
    ways = [["a", "=", "b"], ["a", "=", "a"]]
    module.build(["test"], ways, [], tmp_path)
    assert "proving net_web, because its check cannot be used: test failed" in capsys.readouterr().err
    with pytest.raises(module.Failed):
        module.build(["test"], ways[:1], [], tmp_path)
    module.build(["test"], ways[1:], [], tmp_path)
    assert capsys.readouterr().err == ""
