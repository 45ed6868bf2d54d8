"""The manual page share/netflow.1 compared with the program's help."""
import re

from lib.command import TOP

PAGE, WORDS = "share/netflow.1", "crates/netflow/src/command_words.rt"


def help_words(text):
    """Returns the commands with their arguments, and the exit statuses with their lines, of the source of the help."""
    commands = {}
    for name, body in re.findall(r'Command::new\(\s*alloc,\s*"([a-z]+)"(.*?)(?=Command::new|\nfn |\Z)', text, re.S):
        if ".subcommand_required(" not in body:
            commands[name] = re.findall(r'\bpath\(\s*alloc,\s*"([A-Z]+)"', body)
    listed = re.search(r"Exit status:\n((?:  \d.*\n)+)", text)
    return commands, dict(line.split(None, 1) for line in listed[1].splitlines()) if listed else {}


def errors():
    """Yields what the manual page lacks, or has and the help has not."""
    page, words = TOP / PAGE, TOP / WORDS
    if not page.exists() or not words.exists():
        yield f"{PAGE} or {WORDS} does not exist"
        return
    commands, statuses = help_words(words.read_text(encoding="utf-8"))
    if not commands or not statuses:
        yield f"{PAGE}: found no commands or no exit statuses in {WORDS}"
    sections = dict(re.findall(r"^\.SH (.+)\n((?:(?!\.SH ).*\n?)*)", page.read_text(encoding="utf-8"), re.M))
    yield from command_errors(sections, commands)
    listed = dict(re.findall(r"^\.TP\n\.B (\d+)\n(.*)$", sections.get("EXIT STATUS", ""), re.M))
    for status in sorted(statuses.keys() | listed.keys(), key=int):
        if listed.get(status) != statuses.get(status):
            yield f"{PAGE}: status {status} is {listed.get(status)!r}, and {statuses.get(status)!r} in the help"


def command_errors(sections, commands):
    """Yields what SYNOPSIS and COMMANDS lack of these commands, and what they have besides them."""
    shown = dict(re.findall(r"^\.SS netflow ([a-z]+).*\n((?:(?!\.SS ).*\n?)*)", sections.get("COMMANDS", ""), re.M))
    for name, arguments in commands.items():
        if f".B netflow {name}\n.I {' '.join(arguments)}\n" not in sections.get("SYNOPSIS", ""):
            yield f"{PAGE}: SYNOPSIS has no 'netflow {name} {' '.join(arguments)}'"
        listed = re.findall(r"^\.TP\n\.I (\S+)$", shown.get(name, ""), re.M)
        if listed != arguments:
            yield f"{PAGE}: the arguments of {name} are {listed}, and {arguments} in the help"
    yield from (f"{PAGE}: the help has no command {name}" for name in shown if name not in commands)
