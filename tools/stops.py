"""Shows that a build without proof stops at a place at which a proof would fail, and names the place. tests/stops has a program over a copy
of a crate, the edits of that copy, and rows with what the program is given, how it ends, and what it says.
"""
import os
import shutil
import subprocess
import tempfile

import building
from building import rtlib


def lines_of(path):
    with open(path, encoding="utf-8") as file:
        return file.read().rstrip("\n").split("\n")


def edited(crate, edits):
    """Applies a file of edits, in the form of the must-fail edits, to a copy of a crate."""
    lines = lines_of(edits)
    path = f"{crate}/{lines[0].removeprefix('file: ')}"
    text = "\n".join(lines_of(path)) + "\n"
    for old, new in zip(lines[1::2], lines[2::2]):
        if text.count(old.removeprefix("old: ")) != 1:
            raise building.Unbuilt(f"{edits}: {old} does not stand once in {path}")
        text = text.replace(old.removeprefix("old: "), new.removeprefix("new: "))
    with open(path, "w", encoding="utf-8") as file:
        file.write(text)


def build(top, out):
    """Builds, at that path, the program over the edited copy."""
    crate = next(it for it in rtlib.crates_below(top) if it.name == "gcd_text")
    with tempfile.TemporaryDirectory(prefix="stops-") as room:
        shutil.copytree(crate.folder, f"{room}/gcd_text", ignore=shutil.ignore_patterns("out"))
        edited(f"{room}/gcd_text", f"{top}/tests/stops/edits")
        os.mkdir(f"{room}/src")
        shutil.copy(f"{top}/tests/stops/main.rt.txt", f"{room}/src/main.rt")
        uses = dict.fromkeys(["core", *crate.of_kit])
        words = ["--crate-name", "stops", "src/main.rt", "--lib", f"gcd_text:{','.join(uses)}={room}/gcd_text/src/lib.rt"]
        building.build_checked([*words, *rtlib.kit_sources(crate.of_kit)], room, out, lambda stage: None)


def run(top, program):
    """Runs each row. Returns what to print, how many rows passed and how many failed."""
    told, passed = [], 0
    for row in lines_of(f"{top}/tests/stops/rows"):
        given, status, says = (it.strip() for it in row.split("|"))
        ran = subprocess.run([program], input=f"{given}\n", stdout=subprocess.DEVNULL, stderr=subprocess.PIPE, text=True, timeout=60)
        if ran.returncode == int(status) and says in ran.stderr and bool(says) == bool(ran.stderr):
            passed += 1
        else:
            told.append(f"tests/stops/rows: {row}: it ended with {ran.returncode} and said: {ran.stderr}")
    return "\n".join(told), passed, len(told)
