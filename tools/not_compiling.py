#!/usr/bin/env python3
"""Tries edits after which a crate must not compile, each for the error that it names.

usage: not_compiling.py [TOP]      TOP is the repository, the current folder if left out

An edit of tools/not-compiling has lines `crate:`, `file:`, `old:` (standing once in that file), `new:` and `error:`.
"""
import glob
import os
import shutil
import subprocess
import sys
import tempfile


def read(path):
    with open(path, encoding="utf-8") as file:
        return dict(line.rstrip("\n").split(": ", 1) for line in file)


def said(top, edit):
    """What a check says of the crate with the edit made; the crates below are those of the repository."""
    with tempfile.TemporaryDirectory() as folder:
        shutil.copytree(os.path.join(top, "crates"), os.path.join(folder, "crates"), ignore=shutil.ignore_patterns("out", "target"))
        shutil.copy(os.path.join(top, "crates.txt"), folder)
        crate = os.path.join(folder, "crates", edit["crate"])
        path = os.path.join(crate, edit["file"])
        with open(path, encoding="utf-8") as file:
            text = file.read()
        if text.count(edit["old"]) != 1:
            return "error[edit]: the text to be changed does not stand there once"
        with open(path, "w", encoding="utf-8") as file:
            file.write(text.replace(edit["old"], edit["new"]))
        run = subprocess.run(["rt", "check"], cwd=crate, stdout=subprocess.PIPE, stderr=subprocess.STDOUT, text=True, check=False)
        return run.stdout


def main(top):
    failed = 0
    for path in sorted(glob.glob(os.path.join(top, "tools/not-compiling/*.edit"))):
        name = os.path.basename(path).removesuffix(".edit")
        edit = read(path)
        errors = [line for line in said(top, edit).split("\n") if "error[" in line]
        first = errors[0] if errors else "no error"
        refused = f"error[{edit['error']}]" in first
        failed += not refused
        print(f"{name}: {'does not compile, as it must be' if refused else 'WRONG'}: {first[:200]}")
    return 1 if failed else 0


sys.exit(main(sys.argv[1] if len(sys.argv) > 1 else "."))
