#!/usr/bin/env python3
"""The books of a desk with each allocation refused in turn.

Runs one test of `intake_tests`, `waiting_jobs_handed_back`, in which a clerk leaves while jobs wait and every seat is taken in, once for
each allocation that it makes, with that one refused. A run passes if the test passes (memory was short after the opening, and
nothing was lost), or ends with an error before the books (a store or a desk could not be opened).

    (cd crates/intake_tests && rt test)
    checks/books.py [--bin PATH]

It needs Python 3.10 and a C compiler. The last line is `N passed, M failed`.
"""
import collections
import sys
import tempfile

from allocations import Program, test_ends
from crates import asked_of

TEST = "tests::ending::waiting_jobs_handed_back"


def main() -> None:
    """Refuses each allocation of the test in turn, and prints the counts."""
    asked = asked_of(__doc__, "crates/intake_tests/out/intake_tests_tests")
    options = asked.parse_args()
    with tempfile.TemporaryDirectory() as folder:
        tests = Program(options.bin, folder)
        ends, count = test_ends(tests, TEST)
        assert ends == "passed", ends
        seen = [test_ends(tests, TEST, number).how for number in range(1, count + 1)]
    counts = collections.Counter(seen)
    short = [at for at, ends in enumerate(seen, 1) if ends == "an error"]
    print(", ".join(f"{kind} {counts[kind]}" for kind in sorted(counts)), f"(an error last at allocation {short[-1] if short else 0})")
    print(f"{len(seen) - counts['wrong']} passed, {counts['wrong']} failed")
    sys.exit(1 if counts["wrong"] else 0)


if __name__ == "__main__":
    main()
