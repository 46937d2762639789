"""The must-fail edits of this repository: what each changes, and in which functions."""
import os
import re

FUNCTION = re.compile(r"(\s*)(?:pub(?:\([a-z]+\))? )?(?:const )?fn (\w+)")
# What stands outside of functions: a table, say.
ITEM = re.compile(r"(?:pub(?:\([a-z]+\))? )?(?:static|const (?!fn)|struct|enum|trait|type) ?")
IMPLEMENTATION = re.compile(r"impl\s*(?:<.*?>)?\s*(?:([\w:]+)(?:<.*>)? for )?&?(\w+)")


def ending(path, lines, place):
    """The end of the name that the prover has for the function that a line of a source stands in; None where it stands in none."""
    while place and not FUNCTION.match(lines[place]):
        if ITEM.match(lines[place]):
            return None
        place -= 1
    found = FUNCTION.match(lines[place])
    if not found:
        return None
    if not found[1]:
        module = path.removeprefix("src/").removesuffix(".rt").removesuffix("/mod").split("/")[-1]
        return found[2] if module in ("lib", "main") else f"{module}::{found[2]}"
    while place and not lines[place].startswith("impl"):
        place -= 1
    owner = IMPLEMENTATION.match(lines[place])
    if not owner:
        return None
    implemented = owner[1].split("::")[-1] if owner[1] else ""
    return f"{owner[2]}{implemented}::{found[2]}"


class Edit:
    """An edit of a crate: pairs of a text that stands once in one of its files, and what replaces it."""

    def __init__(self, path, folder):
        self.name, self.folder, self.pairs = os.path.basename(path).removesuffix(".edit"), folder, []
        file = old = None
        with open(path, encoding="utf-8") as it:
            for line in it.read().split("\n"):
                if line.startswith("file: "):
                    file = line.removeprefix("file: ").strip()
                elif line.startswith("old: "):
                    old = line.removeprefix("old: ")
                elif line.startswith("new:"):
                    self.pairs.append((file, old, line.removeprefix("new:").removeprefix(" ")))

    def source(self, file):
        with open(f"{self.folder}/{file}", encoding="utf-8") as it:
            return it.read()

    def applied(self, texts):
        """The texts by file, with this edit."""
        new = dict(texts)
        for file, old, text in self.pairs:
            new[file] = (new.get(file) or self.source(file)).replace(old, text)
        return new

    def functions(self):
        """How the names of the functions end that it changes; none where one of its lines stands in no function."""
        found = set()
        for file, old, _ in self.pairs:
            front = self.source(file).partition(old)[0]
            # (what is replaced may begin above its function)
            at = ending(file, self.source(file).split("\n"), front.count("\n") + old.count("\n")) if file.startswith("src/") else None
            if not at:
                return set()
            found.add(at)
        return found
