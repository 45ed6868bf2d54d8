"""What the items and goals of a crate cost to prove, read from what a check wrote."""
import json
import os
import re

GENERATED = set("Answers Code Given Goals Invariants Key Laws Lts Met Mir Proof Reads Statement Tie Types".split())


def modules(kept, began):
    """Yields item, kind and seconds of each module that the check wrote, in order."""
    written = sorted(
        (os.path.getmtime(f"{at}/{file}"), file[: -len(".oantt")])
        for at, _, files in os.walk(kept)
        for file in files
        if file.endswith(".oantt") and not file.endswith(".decls.oantt")
    )
    for when, module in written:
        parts = re.sub(r"^Rattle-\w+-", "", module).split(".")
        item = "::".join(parts[1:-1]) if parts[-1] in GENERATED else ".".join(parts)
        yield item, parts[-1], when - began
        began = when


# A record of the prover about a closed goal: the tactics that it tried, with their steps, and the name of the goal.
RECORD = re.compile(rb'"calls":(\[\[.*?\]\]),"goals".*?"name":"((?:[^"\\]|\\.)+)"')


def goals(kept):
    """Yields function, goal, and the steps of each tactic, for the goals without an answer."""
    for at, _, files in os.walk(kept):
        for file in files:
            if file.endswith(".Proof.decls.oantt"):
                function = re.sub(r"^Rattle-\w+-proofs\.", "", file)[: -len(".Proof.decls.oantt")].replace(".", "::")
                with open(f"{at}/{file}", "rb") as records:
                    for calls, name in RECORD.findall(records.read()):
                        steps: dict[str, int] = {}
                        for tactic, _, took in json.loads(calls):
                            steps[tactic] = steps.get(tactic, 0) + took
                        yield function, name.decode(), steps


def show_goals(kept):
    found = sorted(goals(kept), key=lambda record: -record[2].get("search", 0))
    total = sum(steps.get("search", 0) for _, _, steps in found)
    in_vain = sum(steps.get("search", 0) for _, _, steps in found if "grind" in steps)
    print(f"search {total / 1e6:.1f} million steps, {in_vain / 1e6:.1f} of them in vain")
    for function, goal, steps in found[:60]:
        grind = f"grind {steps['grind']}" if "grind" in steps else ""
        print(f"{steps.get('search', 0):9}  {grind:14}  {function} {goal}")


def show_items(items, rows):
    dearest = sorted(items.items(), key=lambda pair: -sum(pair[1].values()))
    for item, kinds in dearest[:rows]:
        parts = " ".join(
            f"{kind} {took:.1f}" for kind, took in sorted(kinds.items(), key=lambda pair: -pair[1]) if took > 0.25
        )
        print(f"{sum(kinds.values()):7.1f}  {item}  {parts}")
