#!/usr/bin/env python3
"""Counts the definitions that a definition rests on: those that it names, and all that they name in turn.

usage: definitions.py [-v] CRATE.FILE.NAME ..      as plan.Law.Promises; -v lists them by file

Run at the top of the repository. It reads crates/*/specs; what comes from elsewhere is not counted.
"""
import collections
import glob
import re
import sys

USE = re.compile(r"(?:pub )?use Rattle\.(\w+)\.specs\.([\w.]+)\.\{(.*)\}")
TYPE = re.compile(r"(?:pub )?(?:data|record) (\S+)")
ABBREV = re.compile(r"(?:abbrev|unfoldable) (?:pub )?(\S+) :")
MEMBER = re.compile(r"^(?:pub )?(\w+) :", re.MULTILINE)
WORD = re.compile(r"[^\s(){}.,;:λ]+")


class File:
    """The definitions of a file, the names that it brings in, and whose constructor a name is."""

    def __init__(self, path):
        self.bodies, self.uses, self.owners = {}, {}, {}
        name = None
        with open(path, encoding="utf-8") as file:
            for line in file:
                text = line.strip()
                if found := USE.match(text):
                    crate, module, names = found.groups()
                    for each in names.split(","):
                        first, _, last = each.strip().partition(" as ")
                        self.uses[last or first] = ((crate, module), first)
                elif found := TYPE.match(text) or ABBREV.match(text):
                    name = found.group(1)
                    self.bodies[name] = text + "\n"
                elif name and not text.startswith(("--", "module")):
                    self.bodies[name] += text + "\n"
        for name, body in self.bodies.items():
            if TYPE.match(body):
                self.owners.update((member, name) for member in MEMBER.findall(body))


def resolve(files, key, name):
    """Where a name of a file is defined, if it is in the specs."""
    while key in files:
        file = files[key]
        if name in file.bodies:
            return key, name
        if name in file.owners:
            return key, file.owners[name]
        if name not in file.uses:
            return None
        key, name = file.uses[name]
    return None


def behind(files, start):
    """All that these definitions rest on, and they themselves."""
    seen, left = set(), list(start)
    while left:
        found = left.pop()
        if found in seen:
            continue
        seen.add(found)
        key, name = found
        body = files[key].bodies[name]
        own = set(MEMBER.findall(body)) if TYPE.match(body) else set()
        for word in set(WORD.findall(body)) - own:
            if (next_one := resolve(files, key, word)) is not None:
                left.append(next_one)
    return seen


def main(words):
    files = {}
    for path in glob.glob("crates/*/specs/**/*.antt", recursive=True):
        _, crate, _, rest = path.split("/", 3)
        files[crate, rest.removesuffix(".antt").replace("/", ".")] = File(path)
    start = []
    for word in words:
        if word != "-v":
            crate, rest = word.split(".", 1)
            module, name = rest.rsplit(".", 1)
            start.append(((crate, module), name))
    by_file = collections.defaultdict(list)
    for key, name in behind(files, start):
        by_file[key].append(name)
    print(f"{sum(map(len, by_file.values()))} definitions in {len(by_file)} files")
    if "-v" in words:
        for (crate, module), names in sorted(by_file.items()):
            print(f"  {crate} {module}: {' '.join(sorted(names))}")


main(sys.argv[1:])
