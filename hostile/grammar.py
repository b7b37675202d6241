"""A reader of scripts, written from docs/formats.md alone: where a text is refused, and with which code."""

import re

NUMBER = re.compile(r"0|[1-9][0-9]{0,9}")
WELL_FORMED = re.compile(r"[a-z][a-z0-9_]{0,31}")
MOST = {"file": 64, "object": 1023, "block": 16384, "act": 65535}
DAY, WAIT, MEBIBYTES, LARGE = (1, 86_400_000), (0, 86_400_000), (0, 16_777_216), (0, 2_147_483_647)
QUEUES = {"queue", "root"}
SOURCES = {"add", "or", "replace", "timer", "read"}
OBJECTS = {"queue", "group", "semaphore"} | SOURCES
NODES = {"queue"} | SOURCES
KINDS = {"Q": QUEUES, "T": QUEUES, "G": {"group"}, "X": {"semaphore"}, "O": NODES, "S": SOURCES, "M": {"add", "or", "replace"}}
KINDS |= {"A": OBJECTS, "B": {"block"}, "C": {"block"}, "F": {"file"}, "L": {"strip"}}
NUMBERS = {"#day": DAY, "#wait": WAIT, "#large": LARGE, "#byte": (0, 255), "#place": MEBIBYTES}
NUMBERS |= {"#intake": (1, 4096), "#part": (1, 16_777_216), "#parts": (0, 16_384)}
WORKS = ("bytes", "lines", "words", "sum")

# The words after the first, a form each: a capital stands for a used name of that kind (B: and this line submits it; L: and it applies
# it), `+` for the name that is declared, `#` for a number, `path` for a path; what else stands there is that word.
DECLARATIONS = {
    "file": ["+ path"],
    "queue": [f"+ {kind}{on}{still}" for kind in ("serial", "concurrent") for on in ("", " on T") for still in ("", " inactive")],
    "group": ["+"],
    "semaphore": ["+ #large"],
    "source": ["+ add on T", "+ or on T", "+ replace on T", "+ timer #day #day on T", "+ read path on T"],
    "cancelled": ["S B"],
    "until": ["#day"],
    "block": ["+"]
    + [f"+ {work} F{part}" for work in (*WORKS, "count #byte") for part in ("", " #place #place")],
    "intake": ["Q #intake"],
    "strip": [f"+ {work} F #part #parts" for work in WORKS],
    "handler": ["S"],
    "main": [""],
}
ACTS = {word: ["Q B"] for word in ("async", "barrier", "sync", "barrier_sync")}
ACTS |= {word: ["G Q B"] for word in ("group_async", "notify")}
ACTS |= {"enter": ["G"], "leave": ["G"], "group_wait": ["G"], "signal": ["X"], "wait": ["X"], "target": ["O T"]}
ACTS |= {"suspend": ["O"], "resume": ["O"], "activate": ["O"], "merge": ["M #large"], "cancel": ["S"]}
ACTS |= {"retain": ["A"], "release": ["A"], "wait_for": ["X #wait"], "group_wait_for": ["G #wait"]}
ACTS |= {"apply": ["Q L"], "cancel_block": ["C"], "wait_block": ["C"], "notify_block": ["C Q B"]}
NOT_IN_HANDLERS = {"async", "barrier", "sync", "barrier_sync", "group_async", "notify", "group_wait", "wait", "wait_for", "group_wait_for"}
NOT_IN_HANDLERS |= {"apply", "wait_block", "notify_block"}


def fits(form, words):
    """Whether the words have this form, whatever their names and numbers."""
    asked = form.split()
    if len(asked) != len(words):
        return False
    for ask, word in zip(asked, words):
        if ask == "path" and len(word) > 255:
            return False
        if ask not in KINDS and ask not in ("+", "path") and ask[0] != "#" and ask != word:
            return False
    return True


class Reader:
    """What the lines before this one have declared."""

    def __init__(self):
        self.kinds = {"root": "root"}
        self.counts = dict.fromkeys(MOST, 0)
        self.submitted, self.handlers, self.cancellations = set(), set(), set()
        self.applied, self.cancelled = set(), set()
        self.body = self.until = None
        self.has_main = self.has_intake = False
        self.paths, self.works = {}, {}

    def codes_of(self, first, form, words):
        """The codes from 2 on that apply to the line, by its names and numbers."""
        codes = set()
        for ask, word in zip(form.split(), words):
            if ask == "+":
                if not WELL_FORMED.fullmatch(word) or word in ("root", "main") or word in self.kinds:
                    codes.add(2)
            elif ask in KINDS:
                if word not in self.kinds:
                    codes.add(3)
                elif self.kinds[word] not in KINDS[ask]:
                    codes.add(4)
                elif (ask == "B" and word in self.submitted) or (ask == "L" and word in self.applied):
                    codes.add(6)
            elif ask in NUMBERS:
                least, most = NUMBERS[ask]
                if not NUMBER.fullmatch(word) or not least <= int(word) <= most:
                    codes.add(5)
        return codes | self.other_codes(first, words)

    def other_codes(self, first, words):
        """The codes that the line's first word and its place decide."""
        codes = set()
        if (first == "until" and self.until is not None) or (first == "intake" and self.has_intake):
            codes.add(2)
        if first == "main" and self.has_main:
            codes.add(9)
        if first == "handler" and words[0] in self.handlers:
            codes.add(6)
        if first == "cancelled" and words[0] in self.cancellations:
            codes.add(6)
        if self.body == "handler" and first in NOT_IN_HANDLERS:
            codes.add(7)
        counted, more = self.counted(first, words)
        if counted and self.counts[counted] + more > MOST[counted]:
            codes.add(8)
        return codes

    @staticmethod
    def counted(first, words):
        """What the line is more of, and how many."""
        if first in ACTS:
            return "act", 1
        if first in ("queue", "group", "semaphore", "source"):
            return "object", 1
        if first in ("intake", "strip"):
            return "block", int(words[-1]) if NUMBER.fullmatch(words[-1]) else 0
        return (first, 1) if first in ("file", "block") else (None, 0)

    def take(self, first, form, words):
        """The line is a good one."""
        for ask, word in zip(form.split(), words):
            if ask == "+":
                self.kinds[word] = words[1] if first == "source" else first
            elif ask == "B":
                self.submitted.add(word)
            elif ask == "L":
                self.applied.add(word)
        if first == "file":
            self.paths[words[0]] = words[1]
        if first == "block" and len(words) > 1:
            self.works[words[0]] = words[1:]
        if first == "strip":
            self.works |= strip_works(*words)
        if first == "cancel_block":
            self.cancelled.add(words[0])
        counted, more = self.counted(first, words)
        if counted:
            self.counts[counted] += more
        if first in DECLARATIONS:
            self.body = first if first in ("block", "handler", "main") else None
        if first == "main":
            self.has_main = True
        if first == "intake":
            self.has_intake = True
        if first == "until":
            self.until = int(words[0])
        if first == "handler":
            self.handlers.add(words[0])
        if first == "cancelled":
            self.cancellations.add(words[0])

    def code_of(self, line):
        """The lowest code that applies to the line; None where it is a good one, which is taken."""
        if any(byte < 32 or byte > 126 for byte in line):
            return 1
        words = line.decode("ascii").split(" ")
        words = [word for word in words if word]
        if not words or words[0][0] == "#":
            return None
        first, rest = words[0], words[1:]
        forms = DECLARATIONS.get(first, [])
        if self.body:
            forms = forms or ACTS.get(first, [])
        form = next((form for form in forms if fits(form, rest)), None)
        if form is None:
            return 1
        codes = self.codes_of(first, form, rest)
        if codes:
            return min(codes)
        self.take(first, form, rest)
        return None


def strip_works(name, work, file, length, count):
    """The works of the blocks of a strip, by their names."""
    places = [min(int(length) * i, 16_777_216) for i in range(int(count))]
    return {f"{name}.{i}": [work, file, str(place), length] for i, place in enumerate(places)}


def value_of(work, contents):
    """The value of a block: its work is the words after its name."""
    kind, *rest = work
    byte = int(rest.pop(0)) if kind == "count" else None
    part = contents[rest[0]]
    if len(rest) > 1:
        part = part[int(rest[1]) :][: int(rest[2])]
    if kind == "words":
        return len(part.split())
    return {"bytes": len(part), "lines": part.count(10), "sum": sum(part)}.get(kind, part.count(byte or 0))


def read(text):
    """The first line at fault and its code, or None; and the reader, with the files and feeds that the script names."""
    reader = Reader()
    if len(text) > 1_048_576:
        return (0, 8), reader
    lines = text.split(b"\n")
    if not lines[-1]:
        lines.pop()
    for number, line in enumerate(lines, 1):
        code = reader.code_of(line)
        if code:
            return (number, code), reader
    if not reader.has_main:
        return (len(lines) + 1, 9), reader
    return None, reader
