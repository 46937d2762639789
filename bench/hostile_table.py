"""The table of bench/hostile in bench/README.md: what it is made of, and whether it is one of the cases that there are."""
import datetime
import os
import pathlib
import re
import sys

from hostile_cases import CASES
from scripts import HERE

README = HERE / "README.md"
BEGIN, END = "<!-- bench/hostile -->\n", "<!-- /bench/hostile -->\n"
HEAD = "| Case | What it asks for | Commands | Seconds | Units |\n|---|---|---|---:|---:|\n"


def processor():
    """The name of the processor, as Linux tells it."""
    told = pathlib.Path("/proc/cpuinfo")
    named = re.search(r"^model name\s*: (.+)$", told.read_text(encoding="utf-8"), re.MULTILINE) if told.exists() else None
    return named[1] if named else "of no name"


def commands(case):
    """The commands that a case measures: what is checked is the report that its script makes, but where the case has one."""
    return ["script", "check"] if case.command == "check" and isinstance(case.make(0), str) else [case.command]


def front(case):
    """What a row says of a case before its figures."""
    return f"| `{case.name}` | {' '.join(case.make.__doc__.split())} | {', '.join(commands(case))} |"


class Table:
    """The figures of each case: seconds and units, by its commands in turn."""

    def __init__(self, unit):
        self.unit = unit
        self.figures = {}

    def add(self, case, seconds, units, bad):
        """Adds what a command of a case took, and what was over or wrong in it."""
        told = f"**{units:.1f}** ({' '.join(bad.split())})" if bad else f"{units:.1f}"
        self.figures.setdefault(case.name, []).append((units, f"{seconds:.2f}", told))

    def text(self):
        """The table, the most units first, below the day and the machine."""
        day = datetime.datetime.now(datetime.timezone.utc).date()
        rows = ""
        for name, figures in sorted(self.figures.items(), key=lambda it: -max(it[1])[0]):
            _, seconds, units = zip(*figures)
            rows += f"{front(CASES[name])} {', '.join(seconds)} | {', '.join(units)} |\n"
        return f"Printed on {day}, on {os.cpu_count()} processors ({processor()}), where a unit was {self.unit:.2f} s.\n\n{HEAD}{rows}"

    def write(self):
        """Puts it in its place in the page."""
        before, _, rest = README.read_text(encoding="utf-8").partition(BEGIN)
        README.write_text(before + BEGIN + self.text() + END + rest.partition(END)[2], encoding="utf-8")


def check():
    """Says where the page lacks the row of a case, or has one of none, and returns the status."""
    written = README.read_text(encoding="utf-8").partition(BEGIN)[2].partition(END)[0].partition(HEAD)[2]
    found = {row.rsplit("|", 3)[0] + "|" for row in written.splitlines()}
    differ = sorted(found ^ {front(case) for case in CASES.values()})
    if differ:
        print(f"bench/README.md: {len(differ)} rows are not those of the cases (bench/hostile --write): {differ[0][:120]}", file=sys.stderr)
    return 1 if differ else 0
