#!/usr/bin/env python3
"""Brings the names that the crates' own .antt files declare to snake case: 'left-side' and 'leftSide' to 'left_side'.

usage: tools/snake_names.py [--check]      at the top of the repository

Names of types, facts and modules (upper camel case), of Rust's functions, and those that the prover makes stay.
Run it once, right behind the toolchain's own script: what it wrote is not to be turned again. --check only says what would change.
"""
import os
import re
import sys

WORD = re.compile(r'[^\s(){}.;,@"«»]+')
QUIET = re.compile(r'"(?:[^"\\\n]|\\.)*"|(?<![^\s(){}.;,@"«»])--[^\n]*|\{-.*?-\}', re.S)
DECLARED = re.compile(r"^ *(?:pub |abbrev |unfoldable )*((?:%s)(?:, (?:%s))*)(?: [({].*?[)}])* : ?(.*)$" % (WORD.pattern, WORD.pattern))
# The files that answer goals, and the heads of paths whose next part the prover makes there.
ANSWERS = re.compile(r"/proofs/.*/(?:Answers|Invariants|Choices)\.antt$")
HEADS = re.compile(r"(?:goal|c|w|l|g|the|v|given|initial)\Z")
USE = re.compile(r"\buse ([^\s;{]+?)\.?(\{[^}]*\})?(?=;|\s|$)")
# Lemmas that would fall together with their function's name, or another's: these get '_lem' in the files named.
LEMMAS = {
    "bit-or": ("gather/specs/Bitwise",),
    "is-bit": ("gather/specs/Bitwise", "gather/proofs/bits/bit/Answers"),
    "code_is": ("grammar/proofs/Completion",),
    "is-terminal": ("grammar/proofs/FormSteps", "grammar/proofs/TakenWords", "plan/proofs/WordTurns"),
    "goto-of": ("line/proofs/HeldStates",),
    "group_at": ("tables/proofs/Groups",),
    "rule-at": ("tables/proofs/RuleArrays",),
    "leads-on": ("tables/proofs/ReadSteps", "examples/proofs/StatesTest"),
    "direct-in": ("examples/proofs/DirectTest",),
    "direct-behind": ("examples/proofs/DirectTest",),
    "includes-to": ("examples/proofs/FollowTest",),
    "reads-to": ("examples/proofs/FollowTest",),
    "in-range": ("examples/proofs/LimitsTest",),
    "judge-turned": ("plan/proofs/LineCalls", "plan/proofs/lines/Lines/judge/Answers"),
    "word-turned": ("plan/proofs/LineCalls", "plan/proofs/lines/Lines/word/Answers"),
    "no-turns": ("plan/proofs/TurnLists", "plan/proofs/ShownTurns"),
    "is-rule": (
        "grammar/proofs/FormSteps",
        "tables/proofs/DerivingRounds",
        "tables/proofs/FilledStates",
        "tables/proofs/HeldTables",
        "tables/proofs/Lookaheads",
        "tables/proofs/RuleArrays",
        "tables/proofs/RuleReadings",
        "tables/proofs/RuleSteps",
        "tables/proofs/SheetRules",
        "tables/proofs/UsedBy",
        "tables/proofs/readings/left_side/Answers",
        "examples/proofs/Codes",
        "examples/proofs/Derived",
        "examples/proofs/FollowTest",
        "examples/proofs/UsefulTest",
    ),
}
FIELD = re.compile(r" = | : IsRule\b")
CLAUSE = re.compile(r"(?:requires|ensures)\s*\*?\s*(?:\w+\s*)?\{|ghost\s*(?:\w+\s*(?::\s*|=\s*))?\{|ghost\s+use\b")


def snake(name):
    """Snake case; a fact or a type within a lemma's name keeps its capital."""
    words = re.sub(r"(?<=[a-z0-9])[A-Z]", lambda m: "_" + m[0].lower(), name)
    return words.replace("-", "_")


def files():
    for folder, folders, names in os.walk("crates"):
        folders[:] = sorted(f for f in folders if f != "out")
        for name in sorted(names):
            if name.endswith((".antt", ".rt")):
                yield os.path.join(folder, name)


def is_own(path):
    parts = path.split(".")
    return parts[0] == "Rattle" and len(parts) > 1 and os.path.isdir("crates/" + parts[1])


def turned(name):
    return name[0].islower() and snake(name) != name and re.fullmatch(r"[\w'-]+", name)


def declared(texts):
    found = set()
    for path, text in texts.items():
        if not path.endswith(".antt"):
            continue
        for line in QUIET.sub(" ", text).split("\n"):
            m = DECLARED.match(line)
            if m and not re.match(r"(goal|given)\.", m[2].strip()):
                found.update(it for it in m[1].split(", ") if turned(it))
    return found


def lemmas(path, text):
    """The text with the lemmas of the list above respelled."""
    for old, places in LEMMAS.items():
        if path[len("crates/") : -len(".antt")] in places:
            word = re.compile(r'(?<![^\s(){};,@"«»])' + re.escape(old) + r'(?![^\s(){}.;,@"«»])')
            text = word.sub(lambda m: m[0] if FIELD.match(text, m.end()) else snake(m[0]) + "_lem", text)
    return text


def bound(text, stay):
    """The variables of a proof that are spelled in the old way."""
    words = re.findall(r'(?<![^\s(){};,@"«»])' + WORD.pattern, QUIET.sub(" ", text))
    return {it for it in words if turned(it) and it not in stay}


def made(text):
    """What stays in this file: names that it brings from elsewhere, and those that it answers."""
    stay = set()
    for path, items in USE.findall(text):
        names = set(WORD.findall(items))
        if not is_own(path) or path.split(".")[-1] in ("Goals", "Given"):
            stay |= names
    for line in QUIET.sub(" ", text).split("\n"):
        m = DECLARED.match(line)
        if m and re.match(r"(goal|given)\.", m[2].strip()):
            stay.update(m[1].split(", "))
    return stay


def turn(text, table, stay, answers=False):
    def one(m):
        word = m[0]
        if word not in table or word in stay:
            return word
        before = text_now[max(0, m.start() - 40) : m.start()]
        head = re.search(r"([^\s(){};,@\"«»]*)\.\Z", before)
        if answers and head and HEADS.match(head[1]):
            return word
        return table[word]

    out, at, text_now = [], 0, ""
    for m in list(QUIET.finditer(text)) + [None]:
        text_now = text[at : m.start() if m else len(text)]
        out.append(WORD.sub(one, text_now))
        if m:
            out.append(m[0])
            at = m.end()
    return "".join(out)


def clauses(text):
    """Where the text of a .rt file is antt's: the clauses, ghost items and ghost uses."""
    at = 0
    for m in CLAUSE.finditer(text):
        if m.start() < at:
            continue
        if m[0].endswith("use"):
            at = text.index(";", m.end())
        else:
            depth, at = 1, m.end()
            while depth:
                depth += (text[at] == "{") - (text[at] == "}")
                at += 1
        yield m.start(), at


def main():
    olds = {p: open(p, encoding="utf-8").read() for p in files()}
    texts = {p: lemmas(p, t) if p.endswith(".antt") else t for p, t in olds.items()}
    names = {it: snake(it) for it in declared(texts)}
    for path, text in texts.items():
        stay = made(text)
        if path.endswith(".antt"):
            table = {**{it: snake(it) for it in bound(text, stay)}, **names}
        else:
            table = names
        if path.endswith(".antt"):
            new = turn(text, table, stay, ANSWERS.search(path))
        else:
            out, at = [], 0
            for a, b in clauses(text):
                out += [text[at:a], turn(text[a:b], table, stay)]
                at = b
            new = "".join(out) + text[at:]
        words = set(WORD.findall(QUIET.sub(" ", text)))
        fresh = {}
        for w in words:
            to = table.get(w, w) if w not in stay else w
            fresh.setdefault(to, set()).add(w)
        for to, many in sorted(fresh.items()):
            if len(many) > 1:
                print(f"falls together: {path}: {', '.join(sorted(many))} -> {to}")
        kept = sorted(words & stay & set(table))
        if kept:
            print(f"stays: {path}: {', '.join(kept)}")
        if new != olds[path] and "--check" not in sys.argv:
            with open(path, "w", encoding="utf-8") as f:
                f.write(new)
    print(f"{len(names)} names")


main()
