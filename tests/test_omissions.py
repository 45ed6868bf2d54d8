"""What a plan suggests that its model has left out: an end of arcs, a requirement, a lower bound, an index; and sets
that a later data file replaces. The words come with the plan, the reasons and the page; a right model gets none."""
import pytest

from support import BREAD, read, run, write

MODEL, DATA = read(BREAD / "bread.mod"), read(BREAD / "bread.dat")
TOOLS = ("netflow-plan", "netflow-why", "netflow-report")

# The parts of the example that are replaced, options, the first line of the plan, and what is worth a look.
MISTAKES = {
    "no from": (
        {"from Bakery[b], to": "to"},
        [],
        # Each shop from the cheaper bakery as far as its van goes: 40 + 5 for lake.
        "Total = 425",
        "no arc touches Bakery, and Drive has no from, so that its units come from the outside: is from Bakery[..]"
        " missing?",
    ),
    "no to": (
        {", to Shop[s]": "", "net_out <= bakes[b]": "net_out >= bakes[b]", "net_in = wants[s]": "net_in <= wants[s]"},
        [],
        # 40 at 4 and 20 at 6 from one bakery, 40 at 3 and 10 at 5 from the other.
        "Total = 450",
        "no arc touches Shop, and Drive has no to, so that its units go to the outside: is to Shop[..] missing?",
    ),
    "nothing required": (
        {"net_in = wants[s]": "net_in <= wants[s]"},
        [],
        "Total = 0",
        "all flows are 0, since no place requires anything: is net_in = or net_in >= meant in the condition of Shop?",
    ),
    "no lower bound": (
        {">= 0, <= van": "<= van"},
        ["--bounds"],
        "Total = 325",
        "Drive has no lower bound, and 2 of its flows are negative (Drive['north','mill'], Drive['south','hill']):"
        " is >= 0 missing?",
    ),
    "no price of some arcs": (
        {"cost[b,s];": "cost[b,s];\narc Extra {s in SHOPS} >= 0, <= 1, to Shop[s];"},
        [],
        # A free loaf for each shop saves 4 + 6 + 3, and 1 more as south then has one for lake in place of north.
        "Total = 426",
        "Extra has no price.",
    ),
    "no price at all": (
        {", obj Total cost[b,s]": ""},
        [],
        "Total = 0",
        "No arc has a price, so every plan is worth 0: is `obj Total ..` missing?",
    ),
}


@pytest.mark.parametrize("tool", TOOLS)
@pytest.mark.parametrize("name", MISTAKES)
def test_omission(tmp_path, name, tool):
    changes, options, value, said = MISTAKES[name]
    text = MODEL
    for right, wrong in changes.items():
        assert right in text, right
        text = text.replace(right, wrong, 1)
    status, out, told = run(tool, write(tmp_path, "m.mod", text), BREAD / "bread.dat", *options)
    assert status == 0
    if tool == "netflow-plan":
        assert out.startswith(f"{value}\n") and f"netflow-plan: {said}\n" in told
    elif tool == "netflow-why":
        assert f"\n{said}\n" in out
    else:
        words = said.replace("['", " ").replace("','", " ").replace("']", "")
        assert words.replace(">", "&gt;") in out


@pytest.mark.parametrize("tool", TOOLS)
def test_right_plan(tool):
    """The example has nothing to look at."""
    status, out, told = run(tool, BREAD / "bread.mod", BREAD / "bread.dat")
    assert (status, told) == (0, "") and "no price" not in out and "missing?" not in out and "have no" not in out


def test_maximum_without_prices():
    """In a maximum flow only what counts has a price."""
    folder = BREAD.parent / "max_flow"
    assert run("netflow-plan", folder / "max_flow.mod", *folder.glob("max_flow.dat"))[::2] == (0, "")


RING = """set C; param supply {C} default 0; minimize Cost;
node Place {c in C}: net_in = -supply[c];
arc Ship {i in C, i in C} >= 0, <= 9, from Place[i], to Place[i], obj Cost 1;"""
PLACES = "set C := a b;\nparam supply := a 5 b -5;\n"
LOOPS = "Ship: each of its 2 arcs leads from a node to itself"


def test_index_twice(tmp_path):
    """The second i of the braces is the first one, so that no arc leads from a to b."""
    data = write(tmp_path, "m.dat", PLACES)
    status, _, told = run("netflow-plan", write(tmp_path, "m.mod", RING), data)
    twice = "the second i of {i in C, i in C} is the first one, so use two names"
    assert status == 2 and f"netflow-plan: {LOOPS}: {twice}\n" in told
    condition = RING.replace("i in C, i in C", "i in C, j in C: i = j")
    assert f"netflow-plan: {LOOPS}\n" in run("netflow-plan", write(tmp_path, "m.mod", condition), data)[2]
    right = RING.replace("{i in C, i in C}", "{i in C, j in C}").replace("to Place[i]", "to Place[j]")
    assert run("netflow-plan", write(tmp_path, "m.mod", right), data)[::2] == (0, "")


def test_codes_as_numbers(tmp_path):
    """3E2 and 4D1 are accepted, as the numbers 300 and 40."""
    data = write(tmp_path, "m.dat", DATA.replace("hill", "3E2").replace("lake", "4D1"))
    status, out, told = run("netflow-plan", BREAD / "bread.mod", data)
    assert status == 0 and "'north' 300 30\n" in out
    said = "SHOPS has the number 300 as a member, written as 3E2: if it is a code, quote it everywhere, '3E2'"
    assert told == f"netflow-plan: {said}\n"


def test_set_of_a_later_file(tmp_path):
    """A set in a second data file replaces the first one."""
    more = write(tmp_path, "market.dat", "set SHOPS := market;\nparam wants := market 5;\n")
    status, _, told = run("netflow-plan", BREAD / "bread.mod", BREAD / "bread.dat", more)
    said = f"{more}:1 replaces the set SHOPS of {BREAD / 'bread.dat'} (hill, lake, mill): list all members there"
    assert status == 3 and said in told and "is it missing" not in told
    # Here hill is missing in both files, and the old hint is right.
    other = write(tmp_path, "first.dat", DATA.replace("hill lake mill;", "lake mill;"))
    assert "replaces" not in run("netflow-plan", BREAD / "bread.mod", other, more)[2].split("hill", 1)[0]


def test_page_as_data(tmp_path):
    """A page of netflow-report is given as a second data file."""
    page = write(tmp_path, "bread.html", run("netflow-report", BREAD / "bread.mod", BREAD / "bread.dat")[1])
    status, _, told = run("netflow-report", BREAD / "bread.mod", BREAD / "bread.dat", page)
    said = f"{page} is a web page, not data; to write a page: netflow-report MODEL DATA > {page}"
    assert status == 3 and said in told
