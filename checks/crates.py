"""The repository: which of its crates use which, by crates.txt, and the options of its scripts."""
import argparse
import os
from collections.abc import Iterable

ROOT = os.path.dirname(os.path.dirname(os.path.abspath(__file__)))


def asked_of(doc: str | None, program: str | None = "crates/jaeger_one/out/jaeger_one") -> argparse.ArgumentParser:
    """Returns the parser of a script's options, with `--bin` if it runs a program."""
    asked = argparse.ArgumentParser(description=doc, formatter_class=argparse.RawDescriptionHelpFormatter)
    if program:
        asked.add_argument("--bin", default=os.path.join(ROOT, program), help=f"the program; {program} if none is named")
    return asked


def lists() -> dict[str, list[str]]:
    """Returns what each crate uses, in the order of the file."""
    with open(os.path.join(ROOT, "crates.txt"), encoding="utf-8") as file:
        lines = [line.partition(":") for line in file if ":" in line and not line.startswith("#")]
    return {head.split()[0]: tail.split() for head, _, tail in lines}


def below(names: Iterable[str], used: dict[str, list[str]]) -> set[str]:
    """Returns these crates and those of the repository that they use, directly or through others."""
    found: set[str] = set()
    ahead = [*names]
    while ahead:
        crate = ahead.pop()
        if crate in used and crate not in found:
            found.add(crate)
            ahead += used[crate]
    return found
