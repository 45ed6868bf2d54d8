"""The command line of a program of bench/ that writes a network: a model, its data, or the same network for glpsol."""
import random
import sys

from lib import command


def write_part(documentation, sizes, data, model, mathprog=None):
    """Writes the part that the command line names: PART, the sizes, SEED. `data` takes the sizes and a random generator
    and returns the data statements; `mathprog` has what comes before them in the file for glpsol."""
    parser = command.parser(documentation)
    parser.add_argument(
        "part", metavar="PART", choices=("model", "data", "mathprog") if mathprog else ("model", "data")
    )
    for size in sizes:
        parser.add_argument(size.lower(), metavar=size, type=command.count)
    parser.add_argument("seed", metavar="SEED", type=int)
    words = vars(parser.parse_args())
    if words["part"] == "model":
        text = model
    else:
        text = data(*(words[size.lower()] for size in sizes), random.Random(words["seed"]))
    sys.stdout.write(f"{mathprog}data;\n{text}end;\n" if words["part"] == "mathprog" else text)
