#!/usr/bin/env python3
"""Random scripts of waits, most with a limit, by 1, 2, 4 and 64 workers. Each journal is judged by a model that is written from
docs/rules.md alone: when a wait passes, when it may expire, when its block may wake, which time comes next, and what a stuck run waits
for. One worker records an Expire as soon as one may come, that of the block declared first. A case is made of the seed and its number."""

import random
import re
import tempfile
import threading
from concurrent.futures import ThreadPoolExecutor

from common import Part, call, why_not, words_of

WORKERS = ["1", "2", "4", "64"]
STATES = {0: b"drained", 1: b"stuck"}
LIMITS = [0, 0, 1, 2, 3, 5, 8, 30]
KINDS = ["wait", "wait_for", "wait_for", "signal", "signal", "enter", "leave", "group_wait", "group_wait_for", "group_wait_for"]


class Plan:
    """A script of waits without misuse: objects, the acts of each block in the order of their declaration, and `main`."""

    def __init__(self, chance):
        self.chance, self.until = chance, chance.choice([None, 5, 12, 40])
        self.semaphores = {f"s{k}": chance.choice([0, 0, 1, 2]) for k in range(chance.randint(1, 3))}
        self.groups = [f"g{k}" for k in range(chance.randint(1, 2))]
        self.queues = {f"q{k}": chance.choice(["serial", "concurrent", "concurrent"]) for k in range(chance.randint(1, 3))}
        self.timer = (chance.randint(1, 6), chance.randint(1, 6)) if chance.random() < 0.3 else None
        self.acts = {"main": self.body(8)} | {f"b{k}": self.body(6) for k in range(chance.randint(1, 9))}
        for block in list(self.acts)[1:]:
            self.acts["main"].insert(chance.randint(0, len(self.acts["main"])), self.submission(block))
        if self.timer:
            self.acts["main"].insert(0, ("activate", "t"))

    def body(self, most):
        """Acts of a block, which leaves a group only where it has entered it."""
        acts, entered = [], []
        for _ in range(self.chance.randint(0, most)):
            kind = self.chance.choice(KINDS)
            name = self.chance.choice(self.groups if kind[0] in "gel" else list(self.semaphores))
            if kind == "enter":
                entered.append(name)
            if kind == "leave":
                if not entered:
                    continue
                name = entered.pop()
            acts.append((kind, name, self.chance.choice(LIMITS)) if kind.endswith("_for") else (kind, name))
        return acts

    def submission(self, block):
        queue = self.chance.choice(["root", *self.queues])
        if self.chance.random() < 0.7:
            return ("async", queue, block)
        return ("group_async", self.chance.choice(self.groups), queue, block)

    def script(self):
        lines = [f"until {self.until}"] if self.until else []
        lines += [f"semaphore {name} {value}" for name, value in self.semaphores.items()]
        lines += [f"group {name}" for name in self.groups] + [f"queue {name} {kind}" for name, kind in self.queues.items()]
        lines += [f"source t timer {self.timer[0]} {self.timer[1]} on root"] if self.timer else []
        for block in [*list(self.acts)[1:], "main"]:
            lines.append("main" if block == "main" else f"block {block}")
            lines += [" ".join(map(str, act)) for act in self.acts[block]]
        return "".join(f"{line}\n" for line in lines).encode()


class Wait:
    """A block is parked: at a semaphore or for a group, since an event, with a limit or None."""

    def __init__(self, name, since, limit):
        self.name, self.since, self.limit, self.has_expired = name, since, limit, False


class Model:
    """What has happened so far."""

    def __init__(self, plan):
        self.plan, self.now, self.until, self.position = plan, 0, plan.until or 1000, 0
        self.signals, self.waits = dict.fromkeys(plan.semaphores, 0), {name: [] for name in plan.semaphores}
        self.counts, self.empty_at = dict.fromkeys(plan.groups, 0), {name: [] for name in plan.groups}
        self.parked, self.group_of, self.times = {}, {}, range(0)

    def has_come(self, wait):
        """Whether the wait has passed."""
        if wait.has_expired:
            return False
        if wait.name in self.counts:
            return any(position >= wait.since for position in self.empty_at[wait.name])
        left = [other for other in self.waits[wait.name] if not other.has_expired]
        return left.index(wait) < self.plan.semaphores[wait.name] + self.signals[wait.name]

    def is_over(self, wait):
        return wait.has_expired or self.has_come(wait)

    def limits(self):
        """The limits of waits that are not over, by block."""
        waits = [(block, wait) for block, wait in self.parked.items() if wait.limit is not None]
        return {block: wait.limit for block, wait in waits if not self.is_over(wait)}

    def may_expire(self):
        """The blocks whose waits may, in the order of their declaration."""
        limits = self.limits()
        return [block for block in self.plan.acts if block in limits and limits[block] <= self.now]

    def next_due(self):
        ahead = [time for time in [*self.limits().values(), *self.times] if time > self.now]
        return min(ahead, default=None)

    def act(self, block, kind, name, *rest):
        limit = min(self.now + rest[0], self.until) if kind.endswith("_for") else None
        match kind:
            case "wait" | "wait_for":
                self.parked[block] = Wait(name, self.position, limit)
                self.waits[name].append(self.parked[block])
            case "group_wait" | "group_wait_for":
                self.parked[block] = Wait(name, self.position, limit)
            case "signal":
                self.signals[name] += 1
            case "enter":
                self.counts[name] += 1
            case "leave":
                self.counts[name] -= 1
            case "group_async":
                self.counts[name] += 1
                self.group_of[rest[1]] = name
            case "activate":
                self.times = range(self.now + self.plan.timer[0], self.until + 1, self.plan.timer[1])

    def why_not(self, kind, *words):
        """Why an event of waits or of time may not come; None where it may, or is another."""
        block = words[-1]
        match kind:
            case "tick":
                due = self.next_due()
                return None if due is not None and due <= int(block) <= self.until else f"the next due time is {due}"
            case "expire":
                return None if block in self.may_expire() else "it may not expire"
            case "wake":
                return None if block in self.parked and self.is_over(self.parked[block]) else "it may not wake"
            case "act" | "end":
                return "it is parked" if words[1] in self.parked else None
        return None

    def take(self, kind, *words):
        match kind:
            case "tick":
                self.now = int(words[0])
            case "expire":
                self.parked[words[0]].has_expired = True
            case "wake":
                del self.parked[words[1]]
            case "act":
                self.act(words[1], *self.plan.acts[words[1]][int(words[2])])
            case "end":
                if words[1] in self.group_of:
                    self.counts[self.group_of[words[1]]] -= 1
        for name, count in self.counts.items():
            if not count:
                self.empty_at[name].append(self.position)
        self.position += 1

    def why_no_end(self, report):
        """Why the run may not end here with this report."""
        over = [block for block, wait in self.parked.items() if self.is_over(wait)]
        if self.may_expire() or over or self.next_due() is not None:
            return f"something may come: {self.may_expire()}, {over}, {self.next_due()}"
        wanted = {f"{block} waits for {wait.name}" for block, wait in self.parked.items()}
        told = {line for line in report if " waits for " in line}
        return None if told == wanted else f"the waits are {wanted}"


def judge(plan, text, is_alone):
    """What is wrong with the text of a run, if anything; and how many waits have expired."""
    model, lines = Model(plan), text.decode().splitlines()
    count = next(number for number, line in enumerate(lines) if line.startswith("events "))
    for number, line in enumerate(lines[:count]):
        words = line.split()
        first = model.may_expire()[:1]
        if is_alone and first and words[0] != "tick" and words != ["expire", *first]:
            return f"event {number}: {first} is to expire", 0
        why = model.why_not(*words)
        if why:
            return f"event {number}, {line}: {why}", 0
        model.take(*words)
    return model.why_no_end(lines[count + 1 :]), sum(line.startswith("expire ") for line in lines[:count])


def judge_run(program, folder, plan, workers):
    """What is wrong with a run of the script in the folder by so many workers; what was answered; and how many waits have expired."""
    answer = call(program, ["run", "script", "--journal", "--workers", workers], folder)
    why = why_not("run", answer, 1)
    if why:
        return why, answer, 0
    why, expired = judge(plan, answer.text, workers == "1")
    if why:
        return why, answer, 0
    with open(f"{folder}/journal", "wb") as it:
        it.write(answer.text)
    checked = call(program, ["check", "script", "journal"], folder)
    events = re.search(rb"(?m)^events ([0-9]+)$", answer.text)[1]
    wanted = b"lawful %b %b\n" % (events, STATES[answer.status])
    return (None if checked.text == wanted else f"its journal is wanted to be {wanted}"), checked, expired


def main():
    words = words_of(
        __doc__,
        ("--seed", int, 1, "the seed"),
        ("--count", int, 1_000, "how many scripts"),
        ("--first", int, 0, "the number of the first script"),
        ("--jobs", int, 1, "how many calls run at once"),
    )
    part, own = Part("waits"), threading.local()
    with tempfile.TemporaryDirectory(prefix="gcd-hostile-") as room, ThreadPoolExecutor(words.jobs) as pool:

        def one(number):
            own.folder = getattr(own, "folder", None) or tempfile.mkdtemp(dir=room)
            plan, expiries = Plan(random.Random(f"{words.seed} waits {number}")), 0
            with open(f"{own.folder}/script", "wb") as it:
                it.write(plan.script())
            for workers in WORKERS:
                why, answer, expired = judge_run(words.program, own.folder, plan, workers)
                if why:
                    part.refuse(f"seed {words.seed}, number {number}, {workers} workers (its files stand in {own.folder})", why, answer)
                expiries += expired
            return expiries

        expired = sum(pool.map(one, range(words.first, words.first + words.count)))
    part.tell(f"{words.count} scripts of seed {words.seed}, {expired} waits expired")


if __name__ == "__main__":
    main()
