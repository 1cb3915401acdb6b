#!/usr/bin/env python3
"""Lists the places in crates/*/src that an older form may stand in, by kind.

usage: places.py [-v] [TOP]      TOP is the repository, the current folder if left out; -v prints each place
"""
import collections
import glob
import os
import re
import sys

FN = re.compile(r"^( *)(?:pub(?:\([a-z]+\))? )?fn ([a-z_0-9]+)")


def sources(top):
    for path in sorted(glob.glob(os.path.join(top, "crates/*/src/**/*.rt"), recursive=True)):
        with open(path, encoding="utf-8") as file:
            yield os.path.relpath(path, top), file.read().split("\n")


def functions(lines):
    """Each function: its first line's number, its name, its head with clauses, its body."""
    at = 0
    while at < len(lines):
        found = FN.match(lines[at])
        if not found:
            at += 1
            continue
        indent, start = found.group(1), at
        while at < len(lines) and not (lines[at].rstrip() == indent + "}" or lines[at].endswith(";") and "{" not in lines[start:at + 1][-1] and lines[at].startswith(indent) and at >= start and not any(l.rstrip() == indent + "{" or l.rstrip().endswith(" {") for l in lines[start:at + 1])):
            at += 1
        text = lines[start:at + 1]
        cut = next((i for i, l in enumerate(text) if l.rstrip() == indent + "{" or (i < 12 and l.rstrip().endswith(" {") and not l.strip().startswith(("requires", "ensures")))), len(text))
        yield start + 1, found.group(2), text[:cut + 1], text[cut + 1:-1]
        at += 1


def grep(top, pattern):
    rule = re.compile(pattern)
    return [f"{path}:{n}: {line.strip()}" for path, lines in sources(top) for n, line in enumerate(lines, 1) if rule.search(line)]


def answers(top):
    return grep(top, r"-> bool|^ *(pub(\(crate\))? )?[a-z_]+: bool,$|^ *(pub )?enum |fn told\(|^const (DONE|OPENED|LIMITS|ADDED)|255\)|or the count if|which is no code|if there is no room|^ *PLACES$|if it is not there|as_option")


def twins(top):
    groups = collections.defaultdict(list)
    for path, lines in sources(top):
        for n, name, _, body in functions(lines):
            text = " ".join(l.split("//")[0].strip() for l in body).strip()
            shape = re.sub(r"b?'[^']*'|\"[^\"]*\"|\b\d[\w.]*\b", "n", text)
            shape = re.sub(r"\b(?!(?:for|in|if|else|match|return|let|mut|while|loop|true|false|None|Some|Ok|Err|as|n)\b)[A-Za-z_]\w*\b", "v", shape)
            if len(shape) > 24:
                groups[shape].append(f"{path}:{n}: {name}")
    return [" = ".join(g) for g in groups.values() if len(g) > 1]


def loops(top):
    return grep(top, r"^ *(while|loop)\b|^ *for .* in .*\.\.|^ *[a-z_.]+(\[.*\])? \+= 1;")


def by_hand(top):
    return grep(top, r"fn (same|same_bytes|lowest|or_zero|six_bytes|bit|only|either|number|of|is_yes|told|print_[a-z]+|explain[a-z_]*|line_and_column)\b|Ok\([a-z()]+\) => Ok\([a-z()]+\)|Err\([a-z]+\) => Err\([a-z]+\)|return Err\([a-z]+\);")


def repeated_clauses(top):
    seen = collections.defaultdict(set)
    for path, lines in sources(top):
        crate = path.split("/")[1]
        for n, name, head, _ in functions(lines):
            for line in head:
                clause = re.match(r" *requires (?:[a-z_0-9]+ )?\{ (.*) \}$", line)
                if clause:
                    seen[crate, clause.group(1)].add(f"{path}:{n}")
    return [f"{crate}: {clause}: {len(p)} functions" for (crate, clause), p in seen.items() if len(p) > 2]


def companions(top):
    seen = collections.defaultdict(set)
    for path, lines in sources(top):
        if "tests" in path:
            continue
        crate = path.split("/")[1]
        for n, name, head, _ in functions(lines):
            text = " ".join(head)
            text = text[:re.search(r"requires|ensures|$", text).start()]
            parts = sorted(set(re.findall(r"([a-z_]+): &(?:mut )?(?:\'[a-z] )?[\[A-Za-z][^,)]*", text)))
            for i, a in enumerate(parts):
                for b in parts[i + 1:]:
                    seen[crate, a, b].add(f"{path}:{n}")
    return [f"{crate}: {a}, {b}: {len(p)} functions" for (crate, a, b), p in sorted(seen.items()) if len(p) > 2]


def buffers(top):
    out = []
    for path, lines in sources(top):
        text = "\n".join(lines)
        for found in re.finditer(r"struct ([A-Z]\w*)[^{;]*\{(.*?)\n *\}", text, re.S):
            fields = [l.strip() for l in found.group(2).split("\n") if re.match(r" *(pub(\(crate\))? )?[a-z_]+: ", l)]
            arrays = [f for f in fields if re.search(r": (&'[a-z] (mut )?)?\[", f)]
            counts = [f for f in fields if re.search(r"\b(count|size|used|depth|steps|len): (usize|u8|u16)", f)]
            if arrays and (counts or len(arrays) > 1):
                out.append(f"{path}: {found.group(1)}: {len(arrays)} arrays, {len(counts)} counts")
    return out


def switches(top):
    return grep(top, r"fn .*\b[a-z_]+: bool\b|^ +[a-z_]+: bool,$|fn (past_[a-z]+|closing|step)\b")


def more(top):
    return grep(top, r"\bas (usize|u16|u32|u64)\b|unwrap_or\(0\)|^ *let (Some|Ok)\(.*\) = .* else \{$|^ *(pub(\([a-z]+\))? )?enum [A-Z]\w* \{$|= 255;")


KINDS = [("1 answers, flags and numbers for kinds", answers), ("2 twins", twins), ("3 loops with a number kept by hand or over a range", loops), ("4 written by hand", by_hand), ("5 clauses of three functions or more", repeated_clauses), ("5 parameters that travel together", companions), ("6 buffers with a count, parallel arrays", buffers), ("7 flags that pick", switches), ("besides: casts, 0 for none, let-else, enums, 255", more)]


def main():
    words = [w for w in sys.argv[1:] if w != "-v"]
    top = words[0] if words else "."
    for title, kind in KINDS:
        places = kind(top)
        print(f"{title}: {len(places)}")
        if "-v" in sys.argv:
            for place in places:
                print("  " + place)


main()
