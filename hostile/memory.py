#!/usr/bin/env python3
"""Memory is refused, one allocation after the other, and then each with all later ones."""

import subprocess
import sys
import tempfile
from pathlib import Path

from common import TOP, Part, call, words_of
from refused import FOLDER, each_refused, going_on, is_same

CASES = TOP / "examples"

# Tests over an outside in memory, of these crates. Those of `ring` are runs of ten thousand events by four workers and by one, whose journal
# grows as they go, and the last is a run beside callers in other threads.
TESTS = [("gcd_run_tests", f"tests::memory::a_{name}_answers_whole_or_nothing") for name in ("run", "check", "large_script", "team")]
TESTS += [("gcd_workers_tests", "tests::ring::a_long_run_by_a_team_is_whole_or_refused")]
TESTS += [("gcd_workers_tests", "tests::ring::a_long_run_of_jobs_by_one_worker_is_whole_or_refused")]
TESTS += [("gcd_workers_tests", "tests::callers::called::a_run_beside_callers_is_whole_or_refused")]

# A name, the words, and whether the run has a feed or an address: the system's own tables for these are made in the run, and what
# fails in them is a fault of the poller, so that `read fault` is an answer too.
CALLS = [
    ("no command", [], False),
    ("a script that is refused", ["run", "refused/script"], False),
    ("a script that is not there", ["run", "nowhere/script"], False),
    ("a block", ["run", "first/script", "--journal"], False),
    ("files", ["run", "nested/script", "--journal"], False),
    ("groups", ["run", "group/script", "--journal"], False),
    ("semaphores", ["run", "semaphore/script", "--journal"], False),
    ("sources", ["run", "sources/script", "--journal"], False),
    ("a timer", ["run", "timer/script", "--journal"], False),
    ("a misuse", ["run", "misuse/script", "--journal"], False),
    ("a deadlock", ["run", "deadlock/script", "--journal"], False),
    ("a lawful journal", ["check", "first/script", "check_a_journal/journal"], False),
    ("a forged journal", ["check", "first/script", "check_a_forgery/journal"], False),
    ("a large script", ["big", "300"], False),
    ("a large script by four workers", ["big", "300", "--workers", "4"], False),
    ("a team", ["run", "stealing/script", "--workers", "4"], False),
    ("a team that goes on from worker 0's list", ["run", going_on(), "--workers", "4"], False),
    ("senders from outside", ["front", "front/plan", "2"], False),
    ("senders and no intake", ["front", "first/script", "2"], False),
    ("a feed", ["run", "feed/script", "--journal"], True),
    ("an address", ["run", "first/script", "--listen", "127.0.0.1:0"], True),
]


def is_allowed(answer, ample, is_outside):
    """The answer of ample memory; or the status of memory that ran out, with nothing written; or a fault of the poller."""
    if is_same(answer, ample):
        return True
    if answer.errors:
        return False
    return (answer.status, answer.text) == (7, b"") or (is_outside and answer.status == 5 and answer.text.endswith(b"read fault\n"))


def try_call(part, program, case, words, is_outside):
    """One call of the program, each of its allocations refused in turn; how often each answer came."""
    ample = call(program, words, CASES)
    if ample.status is None or ample.status < 0 or ample.errors:
        part.refuse(case, "with ample memory", ample)
    counts = {"refused": 0, "said so": 0, "read fault": 0, "answered": 0}
    for later in (False, True):
        for number, answer in each_refused(program, words, "memory", later=later, folder=CASES):
            if number is None:
                if not is_same(answer, ample):
                    part.refuse(case, "nothing was refused, and the answer is another", answer)
                break
            if not is_allowed(answer, ample, is_outside):
                part.refuse(f"{case}: allocation {number}{' and all later' if later else ''}", "not allowed", answer)
            counts["refused"] += 1
            as_before = is_same(answer, ample)
            counts["answered" if as_before else "said so" if answer.status == 7 else "read fault"] += 1
    return counts


def try_test(part, tests, name):
    """One test over an outside in memory: it fails by an error while it makes that outside, and never after. How many
    allocations were refused before the call, and how many within."""
    words, refused = [name], [0, 0]
    if call(tests, words).status != 0:
        part.refuse(name, "with ample memory", call(tests, words))
    for later in (False, True):
        is_made = False
        for number, answer in each_refused(tests, words, "memory", later=later):
            is_made = is_made or answer.status == 0
            refused[is_made] += number is not None
            wanted = 0 if is_made else 101
            if answer.status != wanted or (not is_made and b"error: Alloc" not in answer.errors):
                part.refuse(f"{name}: allocation {number}{' and all later' if later else ''}", "not allowed", answer)
        if not is_made:
            part.refuse(name, "no allocation of the call was refused", call(tests, words))
    return refused


def laid_crates(room):
    """A copy of the crates in which the folders of tests/ are crates too."""
    if subprocess.run([TOP / "tools/lay_whole", f"{room}/whole"]).returncode:
        sys.exit(70)
    return Path(room) / "whole/crates"


def built_tests(crates, name):
    """The proved tests of a crate, which are built where they are not there."""
    tests = crates / name / f"out/{name}_tests"
    if not tests.exists() and subprocess.run(["rt", "test"], cwd=tests.parent.parent, stdout=sys.stderr).returncode:
        sys.exit(70)
    return tests


def main():
    words = words_of(__doc__, ("--crates", Path, None, "the folder of the crates whose tests are run, by default a copy that is made"))
    part = Part("memory, over an outside in memory")
    with tempfile.TemporaryDirectory(prefix="memory-") as room:
        crates = words.crates.resolve() if words.crates else laid_crates(room)
        counts = [try_test(part, built_tests(crates, crate), name) for crate, name in TESTS]
    before, within = (sum(count[k] for count in counts) for k in (0, 1))
    part.tell(
        f"{within} refusals within {len(TESTS)} calls: nothing is written and there is no journal, or the answer is whole"
        f" ({before} more came before the call, to what makes its outside)"
    )
    part = Part("memory, over the system")
    whole = {}
    for case, call_words, is_outside in CALLS:
        for what, count in try_call(part, words.program, case, call_words, is_outside).items():
            whole[what] = whole.get(what, 0) + count
    part.tell(
        f"{whole['refused']} refusals in {len(CALLS)} calls: {whole['said so']} with status 7 and nothing written,"
        f" {whole['answered']} with the answer of ample memory, {whole['read fault']} with a fault of the feed or the address"
    )
    FOLDER.cleanup()


if __name__ == "__main__":
    main()
