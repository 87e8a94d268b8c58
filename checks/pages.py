#!/usr/bin/env python3
"""Checks the pages: that what they name exists, and that none is longer than its budget.

    checks/pages.py [PAGE..] [--unused]

The pages are those of page_budgets.py, or those that are named. What page_names.py checks:

* each path in backticks, from the top, from crates/ or by its last parts;
* `crate::function`, `Type::function`, `module::test`, and single names: something has to be called so;
* `Type::function`: `clause`, where the words after the colon have to be clauses of one of the functions before it;
* `path/file.rt`: `function`, which has to be in that file;
* `--option`, which the program or a script of checks/ or bench/ has to have.

What page_budgets.py checks, of all pages but bench/figures.md:

* the words of each page, as `wc -w` counts them, and of all pages together;
* the number of links, and the lines of a folder's README;
* that no sentence of prose is too long, and no line, but one of a table or a block of code, has more than 160 characters;
* that no asterisk points to a footnote.

And here:

* each link to a file of the repository, and its #anchor;
* that docs/ has no other page;
* that docs/ASSURANCE.md, of what is trusted, names each crate of the toolchain that crates.txt has;
* that each decision of docs/DECISIONS.md says which form was rejected, except for the limits of the toolchain.

It prints what it finds and exits with status 1. WORDS of page_names.py has names of other programs and of ordinary text; `--unused` lists those of
them that no page uses.
"""
import re
import sys
from collections.abc import Iterator
from pathlib import Path

from crates import asked_of, lists
from page_budgets import BUDGETS, DATA_PAGES, FOLDER_PAGES, MAX_WORDS, PAGES, budget_faults, unlisted, words_of
from page_names import Names, pair_faults, unused_words, word_faults
from page_text import LINK, Fault, anchors, without_blocks
from sources import TOP


def link_faults(page: Path, text: str) -> Iterator[Fault]:
    """Yields the links of a page that lead nowhere."""
    for target in LINK.findall(text):
        if "://" in target:
            continue
        path, _, anchor = target.partition("#")
        file = (page.parent / path).resolve() if path else page
        if not file.exists():
            yield Fault(target, "no such file")
        elif anchor and anchor not in anchors(file.read_text(encoding="utf-8")):
            yield Fault(target, "no such heading")


def trust_faults(text: str) -> Iterator[Fault]:
    """Yields the toolchain's crates that are used and not named among what is trusted."""
    used = lists()
    trusted = text.partition("\n## What is trusted\n")[2].partition("\n## ")[0]
    for crate in sorted({it for below in used.values() for it in below} - used.keys()):
        if f"`{crate}`" not in trusted:
            yield Fault(crate, "a crate of the toolchain that is used, and isn't named among what is trusted")


def decision_faults(text: str) -> Iterator[Fault]:
    """Yields the decisions that say nothing of a rejected form."""
    for decision in text.partition("\n## Limits of the toolchain\n")[0].split("\n### ")[1:]:
        heading, _, body = decision.partition("\n")
        if "Rejected" not in body.partition("\n## ")[0]:
            yield Fault(heading, "it doesn't say which form was rejected")


def page_faults(names: Names, path: str, text: str) -> Iterator[Fault]:
    """Yields all faults of a page."""
    bare = without_blocks(text)
    yield from link_faults(TOP / path, text)
    yield from word_faults(names, bare)
    yield from pair_faults(names, re.sub(r"\n(?![*|#\n-])\s*", " ", bare))
    yield from budget_faults(path, text, bare)
    if path == "docs/ASSURANCE.md":
        yield from trust_faults(bare)
    if path == "docs/DECISIONS.md":
        yield from decision_faults(bare)


def faults_of_all(texts: dict[str, str]) -> Iterator[str]:
    """Yields what is wrong with the pages together."""
    for page in unlisted(str(it.relative_to(TOP)) for it in (TOP / "docs").glob("*.md")):
        yield f"{page}: a page of docs/ that isn't in the list of page_budgets.py"
    words = sum(words_of(texts[page]) for page in (*BUDGETS, *FOLDER_PAGES) if page in texts)
    if words > MAX_WORDS:
        yield f"all pages: {words} words, and at most {MAX_WORDS} are allowed"


def main() -> int:
    """Prints each fault with its page, and the counts."""
    asked = asked_of(__doc__, None)
    asked.add_argument("pages", nargs="*", metavar="PAGE", help="pages, by their paths from the top")
    asked.add_argument("--unused", action="store_true", help="list the words of WORDS that no page uses")
    options = asked.parse_args()
    pages = options.pages or PAGES
    texts = {page: (TOP / page).read_text(encoding="utf-8") for page in pages if (TOP / page).is_file()}
    if options.unused:
        print(*unused_words([without_blocks(text) for text in texts.values()]), sep="\n")
        return 0
    names = Names()
    faults = [f"{page}: no such page" for page in pages if page not in texts]
    for page, text in texts.items():
        faults += [f"{page}: {fault.word}: {fault.why}" for fault in page_faults(names, page, text)]
    if not options.pages:
        faults += faults_of_all(texts)
    for fault in faults:
        print(fault)
    words = sum(words_of(text) for page, text in texts.items() if page not in DATA_PAGES)
    print(f"{len(texts)} pages, {words} words, {len(faults)} faults")
    return 1 if faults else 0


if __name__ == "__main__":
    sys.exit(main())
