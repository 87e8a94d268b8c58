#!/usr/bin/env python3
"""The file of results, bench/results.json: what was measured, when, of which commit and on which machine.

    bench/results.py    prints a line for each series

Scripts that measure add their rows by `Record` if they are given `--save`; `tables.py` makes the pages' tables and plots of them.
"""
import argparse
import datetime
import json
import os
import platform
import re
import shlex
import subprocess
import sys
from typing import Any

sys.path.append(os.path.join(os.path.dirname(os.path.dirname(os.path.abspath(__file__))), "checks"))
import crates
from crates import ROOT

FILE = os.path.join(ROOT, "bench/results.json")
PROGRAMS = ["proved", "unproved"]


def asked_of(doc: str | None, program: str | None = "crates/jaeger_one/out/jaeger_one") -> argparse.ArgumentParser:
    """Returns the parser of a measuring script's options: its program, and whether to keep its rows."""
    asked = crates.asked_of(doc, program)
    asked.add_argument("--save", choices=PROGRAMS, help="keep the rows in bench/results.json, as measured of a program that was built so")
    return asked


def load() -> dict[str, Any]:
    """Returns the results: machines, and series by their names."""
    with open(FILE, encoding="utf-8") as file:
        return json.load(file)


def lines_of(series: dict[str, Any]) -> str:
    """Returns a series as JSON, with a line for each of its rows."""
    rows = ",\n".join("        " + json.dumps(row, ensure_ascii=False) for row in series["rows"])
    head = {key: value for key, value in series.items() if key != "rows"}
    text = ",\n".join(f"      {json.dumps(key)}: {json.dumps(value, ensure_ascii=False)}" for key, value in head.items())
    return f"{{\n{text},\n      \"rows\": [\n{rows}\n      ]\n    }}"


def store(results: dict[str, Any]) -> None:
    """Writes the file."""
    machines = ",\n".join(f"    {json.dumps(name)}: {json.dumps(it)}" for name, it in results["machines"].items())
    series = ",\n".join(f"    {json.dumps(name)}: {lines_of(it)}" for name, it in results["series"].items())
    with open(FILE, "w", encoding="utf-8") as file:
        file.write(f"{{\n  \"machines\": {{\n{machines}\n  }},\n  \"series\": {{\n{series}\n  }}\n}}\n")


def printed(*words: str) -> str | None:
    """Returns the first line that a program prints, or None."""
    try:
        run = subprocess.run(words, cwd=ROOT, capture_output=True, text=True, check=True)
    except (OSError, subprocess.CalledProcessError):
        return None
    return run.stdout.strip().split("\n")[0]


def processor() -> str:
    """Returns what the system calls the processor, and how many there are."""
    with open("/proc/cpuinfo", encoding="utf-8") as file:
        said = dict(line.split(":", 1) for line in file.read().split("\n\n")[0].split("\n") if ":" in line)
    said = {key.strip(): value.strip() for key, value in said.items()}
    name = said.get("model name", platform.machine())
    guest = ", virtual" if "hypervisor" in said.get("flags", "") else ""
    return f"{os.cpu_count()} of {name} (family {said.get('cpu family')}, model {said.get('model')}, stepping {said.get('stepping')}{guest})"


def machine_of(results: dict[str, Any]) -> str:
    """Returns the name of this machine in the results, to which it is added if it isn't there."""
    memory = os.sysconf("SC_PAGE_SIZE") * os.sysconf("SC_PHYS_PAGES") / 1e9
    here = {"processor": processor(), "memory": f"{memory:.0f} GB", "system": f"Linux {platform.release()}"}
    for name, machine in results["machines"].items():
        if machine == here:
            return name
    name = chr(ord("A") + len(results["machines"]))
    results["machines"][name] = here
    return name


def kit() -> str:
    """Returns what `rt version` calls the toolchain, without its logic."""
    return (printed("rt", "version") or "not known").split(" ")[0]


def compiler(name: str) -> str:
    """Returns a compiler of another program with its version, as `rustc 1.95.0`."""
    version = re.search(r"\d+(\.\d+)+", printed(name, "--version") or "")
    return f"{name} {version[0]}" if version else name


def commit() -> str:
    """Returns the last commit that changed a crate; with `, changed` if crates/ has other text."""
    changed = ", changed" if printed("git", "status", "--porcelain", "--", "crates") else ""
    return f"{printed('git', 'log', '-1', '--abbrev=8', '--format=%h', '--', 'crates')}{changed}"


def command() -> str:
    """Returns what was run, without where the program was and that its rows are kept."""
    words = iter(sys.argv[1:])
    kept = [it for it in words if it not in ("--save", "--bin", "--folder") or not next(words)]
    return shlex.join([os.path.relpath(sys.argv[0], ROOT), *kept])


class Record:
    """The rows of one series. `save` keeps them, in place of those that the file has, if the script was asked to."""

    def __init__(self, options: argparse.Namespace, name: str, columns: list[str], **more: str) -> None:
        self.asked = options.save
        self.name = name
        self.series: dict[str, Any] = {"columns": columns, "rows": [], **more}

    def row(self, *values: Any) -> None:
        """Adds a row: a value for each column."""
        self.series["rows"].append(values)

    def save(self) -> None:
        """Writes the series into the file, if the script was asked to keep its rows."""
        if not self.asked:
            return
        results = load()
        results["series"][self.name] = {
            "command": command(), "date": datetime.date.today().isoformat(), "commit": commit(), "machine": machine_of(results),
            "program": self.asked, "compiler": kit(), "load": f"{os.getloadavg()[0]:.0f} at the end", **self.series}
        store(results)


def main() -> None:
    """Prints a line for each series."""
    crates.asked_of(__doc__, None).parse_args()
    for name, it in load()["series"].items():
        taken = f"commit {it['commit']}" if "commit" in it else f"commit not written down, on a page since {it['page']}"
        print(f"{name}: {len(it['rows'])} rows, {it.get('date', 'no date')}, {taken}, machine {it['machine']}")


if __name__ == "__main__":
    main()
