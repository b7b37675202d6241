#!/usr/bin/env python3
"""Random bytes, random words of the languages, and random changes of good texts, as scripts, as journals and as words of the command
line. A case is made of the seed, its kind and its number alone, so that `--only KIND --first N --count 1` makes it again."""

import os
import random
import re
import sys
import tempfile
import threading
from concurrent.futures import ThreadPoolExecutor

import grammar
from common import TOP, Part, call, refuse, why_not, words_of

EXAMPLES = TOP / "examples"
FILES = {"log.txt": b"a\nbb\nccc\n", "text.txt": b"0123456789", "notes.txt": bytes(range(256)), "empty": b""}

# Scripts whose forms no example has.
MORE_SCRIPTS = [
    b"queue t serial inactive\nqueue q concurrent on t\ngroup g\nblock n\nblock a\nenter g\nleave g\nblock x\nmain\nnotify g q n\n"
    b"group_async g q a\nbarrier q x\nactivate t\ngroup_wait g\n",
    b"file f notes.txt\nblock a bytes f 3 9\nblock b count 65 f\nblock c count 10 f 0 200\nblock d sum f\nblock e words f 1 100\nmain\n"
    b"async root a\nasync root b\nasync root c\nsync root d\nasync root e\n",
    b"source s or on root\nsource u add on root\nhandler s\nmerge u 2\nsuspend u\nresume u\nblock c\ncancelled s c\nmain\nactivate s\n"
    b"activate u\nmerge s 3\nmerge s 4\ncancel s\n",
    b"queue a serial\nqueue b serial\nblock x\ntarget a b\nretain a\nrelease a\nblock y\nmain\nasync a x\nbarrier_sync b y\nrelease b\n",
    b"semaphore s 1\nblock x\nwait s\nsignal s\nblock y\nwait s\nmain\nasync root x\nasync root y\nwait s\nsignal s\n",
    b"semaphore s 1\ngroup g\nuntil 20\nblock a\nwait_for s 5\ngroup_wait_for g 3\nblock b\nwait_for s 0\nwait_for s 9\nsignal s\nmain\n"
    b"enter g\nasync root a\nasync root b\ngroup_wait_for g 30\nleave g\n",
    b"source n replace on root\nblock b\nmerge n 5\nmain\nmerge n 3\nmerge n 0\nactivate n\nsync root b\nmerge n 4\n",
    b"source t timer 1 2 on root\nhandler t\nretain t\nuntil 9\nmain\nactivate t\n",
    b"source r read text.txt on root\nsource v read log.txt on root\nblock c\ncancelled r c\nmain\nresume r\nactivate v\n",
    b"file f notes.txt\nqueue q concurrent\nstrip a sum f 50 9\nstrip e bytes f 1 0\nblock b\napply q a\nintake q 3\nmain\nasync root b\n"
    b"apply root e\n",
    b"file f log.txt\nqueue q serial\nblock a lines f\nblock b words f\nblock c bytes f\nblock d\nmain\ncancel_block b\n"
    b"notify_block b q c\nasync q a\nasync q b\nnotify_block a root d\nwait_block b\nwait_block d\n",
]
WORDS = sorted(set(grammar.DECLARATIONS) | set(grammar.ACTS))
WORDS += "serial concurrent inactive on root main add or replace timer read bytes lines words sum count tcp q r s t f a b g 0 1 7 007 -1".split()
WORDS += "a.0 a.1 +1 +2".split()
WORDS += "log.txt text.txt nowhere 2147483647 2147483648 16777216 86400000 99999999999999999999 q q s b #".split()
EVENTS = "start act wake end deliver deliver_end tick ready feed_end misuse halt expire accept shut events main b1 q s r M1 M9".split()
EVENTS += "a.0 a.1 +1 +2".split()
EVENTS += "0 0 0 1 63 64 00 4294967296".split()
OPTIONS = ["front", "run", "check", "big", "script", "journal", "--workers", "--journal", "--listen", "--help", "-h", "--", "-", "", "=", "1", "0"]
OPTIONS += ["64", "65", "+4", "007", "-1", "16384", "16385", "99999999999999999999", "--workers=4", "--journal=1"]
OPTIONS += ["x", "é", "\x1b", "help"]

FEED = b"source feed read text.txt on root\n"
COMMANDS = [["run", "script"], ["run", "script", "--journal", "--workers", "4"], ["check", "script", "journal"], ["big", "3"]]
COMMANDS += [["big", "3", "--workers", "64"], ["run", "script", "--listen", "127.0.0.1:0"], ["front", "script", "3"], []]


def corpus():
    """Good scripts: those of the examples, and more."""
    scripts = [(folder / "script").read_bytes() for folder in sorted(EXAMPLES.iterdir()) if (folder / "script").exists()]
    return [script for script in scripts + MORE_SCRIPTS if grammar.read(script)[0] is None]


def soup(chance, words, ends):
    """Words of a language, in no order."""
    lines = [b" ".join(chance.choice(words).encode() for _ in range(chance.randint(1, 5))) for _ in range(chance.randint(0, 30))]
    return b"\n".join(lines) + chance.choice(ends)


def noise(chance):
    """Bytes: any, or those that may stand in a text."""
    bytes_of = [range(256), range(32, 127), b"\n #ab01", b" \nmain"]
    return bytes(chance.choices(chance.choice(bytes_of), k=chance.choice([0, 1, 7, 60, 400, 3000])))


def change_bytes(chance, text):
    place, length = chance.randint(0, len(text)), chance.choice([1, 1, 1, 4, 30])
    new = chance.choice([b"", noise(chance)[:length], text[:length], bytes([chance.randrange(256)])])
    return text[:place] + new + text[place + chance.choice([0, length]) :]


def change_words(chance, text, words):
    """A word is another, is twice, is gone, or is one that the text has elsewhere."""
    pieces = re.split(rb"([ \n]+)", text)
    place = 2 * chance.randrange((len(pieces) + 1) // 2)
    others = [b"", pieces[place] * 2, chance.choice(words).encode(), chance.choice(pieces[::2]), chance.choice(pieces[::2])]
    pieces[place] = chance.choice(others)
    return b"".join(pieces)


def change_lines(chance, text):
    """Lines change their places, are twice, or are gone."""
    lines = text.splitlines(True) or [b""]
    one, other = chance.randrange(len(lines)), chance.randrange(len(lines))
    match chance.randrange(4):
        case 0:
            lines[one], lines[other] = lines[other], lines[one]
        case 1:
            lines.insert(one, lines[other])
        case 2:
            del lines[one]
        case _:
            lines[one:one] = lines[other : other + chance.randint(1, 6)]
    return b"".join(lines)


def changed(chance, text, words):
    for _ in range(chance.choice([1, 1, 2, 3, 8])):
        match chance.randrange(5):
            case 0:
                text = change_bytes(chance, text)
            case 1 | 2:
                text = change_words(chance, text, words)
            case _:
                text = change_lines(chance, text)
    return text


def hastened(text):
    """The same script with little time, where it has timers or limits, so that each call ends soon by the real clock too."""
    text = re.sub(rb"(?m)^( *until +)[1-9][0-9]{2,}( *)$", rb"\g<1>60\2", text)
    if re.search(rb" timer |wait_for ", text) and not re.search(rb"(?m)^ *until ", text):
        text = b"until 60\n" + text
    return text


def command(chance):
    """The words of a command, some of which are others."""
    words = list(chance.choice(COMMANDS))
    for _ in range(chance.choice([0, 1, 1, 2, 6])):
        place = chance.randint(0, len(words))
        words[place : place + chance.randint(0, 1)] = [chance.choice(OPTIONS)] * chance.randint(0, 2)
    return words


def word_for(chance, ask, declared):
    """A word that stands for what a form asks, of the names that are declared; None where there is none."""
    if ask in grammar.KINDS:
        kinds = grammar.KINDS[ask]
        return chance.choice([name for name, kind in declared.items() if kind in kinds] or [None])
    if ask in ("#day", "#intake", "#part"):
        return str(chance.randint(1, 20))
    if ask == "#parts":
        return str(chance.choice([0, 1, 2, 3, 10]))
    if ask in grammar.NUMBERS:
        return str(chance.choice([0, 1, 2, 3, 10, 65, 200]))
    return chance.choice(["log.txt", "text.txt", "notes.txt", "empty"]) if ask == "path" else ask


def line_of(chance, first, declared, submitted):
    """A line with this first word, which is a good one wherever its names are used rightly; None where it has no names to use."""
    form = chance.choice((grammar.DECLARATIONS | grammar.ACTS)[first])
    words, own = [first], f"{first[0]}{len(declared)}"
    for ask in form.split():
        left = {name: kind for name, kind in declared.items() if ask not in ("B", "L") or name not in submitted}
        words.append(own if ask == "+" else word_for(chance, ask, left))
    if None in words:
        return None
    if "+" in form:
        declared[own] = words[2] if first == "source" else first
    if form.endswith(("B", "L")):
        submitted.add(words[-1])
    return " ".join(words)


def made(chance):
    """A script of good lines: objects and files, then blocks and handlers with acts, and main with more acts."""
    declared, submitted, handled, lines = {"root": "root"}, set(), set(), ["until 40"]
    firsts = chance.choices(["queue", "queue", "group", "semaphore", "source", "source", "file", "file", "strip"], k=chance.randint(1, 9))
    firsts += chance.choice([[], [], ["intake"]])
    bodies = chance.choices(["block", "block", "block", "handler", "cancelled"], k=chance.randint(0, 9)) + ["main"]
    for first in firsts + bodies:
        line = line_of(chance, first, declared, submitted)
        if not line or (first in ("handler", "cancelled") and " ".join(line.split()[:2]) in handled):
            continue
        handled.add(" ".join(line.split()[:2]))
        lines.append(line)
        acts = sorted(set(grammar.ACTS) - (grammar.NOT_IN_HANDLERS if first == "handler" else set()))
        for _ in range(chance.randint(0, 9 if first == "main" else 3) if first in ("block", "handler", "main") else 0):
            lines.append(line_of(chance, chance.choice(acts + ["activate", "async", "apply"] * (first != "handler")), declared, submitted))
    return "".join(f"{line}\n" for line in lines if line).encode()


class Desk:
    """A folder of a thread's own with the files that scripts name, and the program that is called there."""

    def __init__(self, program, room):
        self.program, self.folder = program, tempfile.mkdtemp(dir=room)
        for name, content in FILES.items():
            self.write(name, content)

    def write(self, name, content):
        with open(f"{self.folder}/{name}", "wb") as it:
            it.write(content)

    def call(self, *words):
        return call(self.program, list(words), self.folder)


def judge_script(desk, text, workers):
    """What is wrong with the answers to a script, by the reader of docs/formats.md; and its journal is checked. For several workers the
    script gets a read source, so that a team runs it whatever its works cost. A handler may merge into its own source, so a run may go on
    for ever; it gets a limit of events."""
    text = text if workers == "1" else FEED + text
    desk.write("script", text)
    answer = desk.call("run", "script", "--journal", "--workers", workers, "--most", "20000")
    why = why_not("run", answer, 8)
    if why:
        return why, answer
    at, reader = grammar.read(text)
    if at:
        wanted = b"script refused: line %d code %d\n" % at
        return (None if answer.text == wanted else f"{wanted} is wanted"), answer
    if answer.status in (2, 3, 6, 7):
        return "the script is a good one", answer
    is_there = all(os.path.isfile(os.path.join(desk.folder, path)) for path in reader.paths.values())
    if answer.status == 5 and answer.text == b"read fault\n":
        return ("each file can be read" if is_there else None), answer
    if not is_there:
        return "a file cannot be read", answer
    why = judge_values(desk, reader, answer)
    return (why, answer) if why else judge_own_journal(desk, answer)


def judge_values(desk, reader, answer):
    """Each block that has ended and is not cancelled has its value, and no other has."""
    contents = {}
    for name, path in reader.paths.items():
        with open(os.path.join(desk.folder, path), "rb") as it:
            contents[name] = it.read()
    ended = re.findall(rb"(?m)^end [0-9]+ ([a-z0-9_.+]+)$", answer.text)
    ended = {name.decode() for name in ended if name.decode() in reader.works}
    cancelled = {name.decode() for name in re.findall(rb"(?m)^([a-z0-9_.+]+) cancelled$", answer.text)}
    if not cancelled <= ended & reader.cancelled:
        return "only a block that has ended, and that an act cancels, is told as cancelled"
    told = {name.decode(): int(value) for name, value in re.findall(rb"(?m)^([a-z0-9_.+]+) = ([0-9]+)$", answer.text)}
    wanted = {name: grammar.value_of(reader.works[name], contents) for name in ended - cancelled}
    return None if told == wanted else f"the values are {wanted}"


STATES = {0: b"drained", 1: b"stuck", 4: b"misuse", 5: b"halted", 8: b"open"}


def judge_own_journal(desk, answer):
    """The journal of a run is a lawful one, and its state is the one that the status tells."""
    desk.write("journal", answer.text)
    checked = desk.call("check", "script", "journal")
    events = re.search(rb"(?m)^events ([0-9]+)$", answer.text)[1]
    wanted = b"lawful %b %b\n" % (events, STATES[answer.status])
    if checked.status or checked.text != wanted or checked.errors:
        return f"its journal is wanted to be {wanted}", checked
    return None, answer


def judge_journal(desk, script, text):
    """What is wrong with the answer to a journal: also, the events before the one that is refused are lawful."""
    desk.write("script", script)
    desk.write("journal", text)
    answer = desk.call("check", "script", "journal")
    why = why_not("check", answer)
    if why or answer.status not in (0, 9):
        return why or "the journal can be read", answer
    lines = text.split(b"\n")
    number = int(re.search(rb"[0-9]+", answer.text)[0])
    if answer.text.startswith(b"journal refused: line"):
        return (None if 1 <= number <= len(lines) + 1 else "no such line"), answer
    if answer.status == 0:
        return (None if lines[number] == b"events %d" % number else "another number of events"), answer
    desk.write("journal", b"".join(line + b"\n" for line in [*lines[:number], b"events %d" % number]))
    checked = desk.call("check", "script", "journal")
    if checked.status or not checked.text.startswith(b"lawful %d " % number):
        return f"the first {number} events are lawful", checked
    return None, answer


def judge_words(desk, words):
    desk.write("script", corpus()[0])
    desk.write("journal", b"events 0\n")
    answer = desk.call(*words)
    for command in ("run", "check", "big", "front"):
        if not why_not(command, answer):
            return None, answer
    return why_not("run", answer), answer


class Cases:
    """The cases of a seed."""

    def __init__(self, seed, program):
        self.seed, self.scripts = seed, corpus()
        with tempfile.TemporaryDirectory(prefix="gcd-hostile-") as room:
            desk = Desk(program, room)
            self.journals = [(script, self.journal_of(desk, script)) for script in self.scripts]

    @staticmethod
    def journal_of(desk, script):
        desk.write("script", script)
        return desk.call("run", "script", "--journal").text

    def judge(self, desk, kind, number):
        """What is wrong with the case, if anything; and what was answered."""
        chance = random.Random(f"{self.seed} {kind} {number}")
        workers = chance.choice(["1", "1", "2", "4", "64"])
        if kind == "words":
            return judge_words(desk, command(chance))
        if kind == "scripts":
            text = chance.choice([noise(chance), soup(chance, WORDS, [b"", b"\n", b"\nmain\n"])])
            return judge_script(desk, hastened(text), workers)
        if kind == "made scripts":
            return judge_script(desk, made(chance), workers)
        if kind == "changed scripts":
            return judge_script(desk, hastened(changed(chance, chance.choice(self.scripts), WORDS)), workers)
        script, journal = chance.choice(self.journals)
        if kind == "journals":
            return judge_journal(desk, script, chance.choice([noise(chance), soup(chance, EVENTS, [b"", b"\n", b"\nevents 3\n"])]))
        return judge_journal(desk, script, changed(chance, journal, EVENTS))


KINDS = ["words", "scripts", "journals", "made scripts", "changed scripts", "changed journals"]


def run_kind(cases, kind, words, room):
    """All cases of a kind, by so many threads; the first that is not allowed ends the script."""
    part, own, statuses = Part(kind), threading.local(), {}

    def one(number):
        own.desk = getattr(own, "desk", None) or Desk(words.program, room)
        why, answer = cases.judge(own.desk, kind, number)
        if why:
            case = f"seed {words.seed}, number {number} (its files stand in {own.desk.folder})"
            refuse(kind, case, why, answer)
        return answer.status

    with ThreadPoolExecutor(words.jobs) as pool:
        for status in pool.map(one, range(words.first, words.first + words.count)):
            statuses[status] = statuses.get(status, 0) + 1
    told = ", ".join(f"{status}: {count}" for status, count in sorted(statuses.items()))
    part.tell(f"{words.count} cases of seed {words.seed}, by status {told}")


def main():
    words = words_of(
        __doc__,
        ("--seed", int, 1, "the seed"),
        ("--count", int, 10_000, "how many cases of each kind"),
        ("--first", int, 0, "the number of the first case"),
        ("--only", str, None, "one kind alone: " + ", ".join(KINDS)),
        ("--jobs", int, 1, "how many calls run at once"),
    )
    if words.only not in (None, *KINDS):
        sys.exit("--only takes one of " + ", ".join(KINDS))
    cases = Cases(words.seed, words.program)
    with tempfile.TemporaryDirectory(prefix="gcd-hostile-") as room:
        for kind in [words.only] if words.only else KINDS:
            run_kind(cases, kind, words, room)


if __name__ == "__main__":
    main()
