"""The list of pages and their limits: words, links, lines, the length of a sentence. `pages.py` uses it."""
import re
from collections.abc import Iterable, Iterator

from page_text import LINK, Fault, sentences, without_emphasis

# The words of each page, at most.
BUDGETS = {
    "README.md": 700,
    "docs/using.md": 5_500,
    "docs/operating.md": 5_500,
    "docs/architecture.md": 4_500,
    "docs/store.md": 2_500,
    "docs/ASSURANCE.md": 2_500,
    "CONTRIBUTING.md": 4_000,
    "docs/DECISIONS.md": 2_500,
    "docs/benchmarks.md": 1_500,
    "CHANGELOG.md": 300,
}
FOLDER_PAGES = ("bench/README.md", "cases/README.md", "checks/README.md", "deploy/README.md", "samples/README.md", "wrong-bodies/README.md")
# It is made by bench/tables.py, so only its links and names are checked.
DATA_PAGES = ("bench/figures.md",)
PAGES = (*BUDGETS, *FOLDER_PAGES, *DATA_PAGES)

MAX_WORDS = 30_000
MAX_FOLDER_LINES = 15
MAX_COLUMNS = 160
README_LINKS, MAX_LINKS = 25, 60
README_SENTENCE, MAX_SENTENCE = 25, 35
FOOTNOTE = re.compile(r"\S*[\w)%\"'.,]\\?\*(?!\w)|^ *\\\*.*", re.M)


def words_of(text: str) -> int:
    """Returns the number of a text's words, as `wc -w` counts them."""
    return len(text.encode().split())


def long_lines(bare: str) -> Iterator[Fault]:
    """Yields the lines of a page that are too long, each by its first words."""
    for line in bare.splitlines():
        if len(line) > MAX_COLUMNS and not line.startswith("|"):
            yield Fault(" ".join(line.split()[:4]), f"a line of {len(line)} characters")


def long_sentences(bare: str, most: int) -> Iterator[Fault]:
    """Yields the sentences of prose that have more than this number of words, each by its first words."""
    for sentence in sentences(bare):
        words = [it for it in sentence.split() if re.search(r"\w", it)]
        if len(words) > most:
            yield Fault(" ".join(words[:6]), f"a sentence of {len(words)} words, and at most {most} are allowed")


def footnotes(bare: str) -> Iterator[Fault]:
    """Yields the asterisks that point to a footnote: one right after a word, and one at the start of a paragraph."""
    for found in FOOTNOTE.finditer(without_emphasis(bare)):
        yield Fault(found[0].strip()[:40], "an asterisk that points to a footnote: say it in words")


def size_faults(page: str, text: str) -> Iterator[Fault]:
    """Yields what a page has too much of: words, links, lines."""
    words, links, lines = words_of(text), len(LINK.findall(text)), len(text.splitlines())
    most = BUDGETS.get(page)
    if most is not None and words > most:
        yield Fault("words", f"{words}, and at most {most} are allowed")
    most_links = README_LINKS if page == "README.md" else MAX_LINKS
    if links > most_links:
        yield Fault("links", f"{links}, and at most {most_links} are allowed")
    if page in FOLDER_PAGES and lines > MAX_FOLDER_LINES:
        yield Fault("lines", f"{lines}, and at most {MAX_FOLDER_LINES} are allowed")


def budget_faults(page: str, text: str, bare: str) -> Iterator[Fault]:
    """Yields the limits that a page passes; `bare` is its text without blocks of code."""
    yield from long_lines(bare)
    if page not in DATA_PAGES:
        yield from size_faults(page, text)
        yield from long_sentences(bare, README_SENTENCE if page == "README.md" else MAX_SENTENCE)
        yield from footnotes(bare)


def unlisted(docs: Iterable[str]) -> list[str]:
    """Returns the pages of docs/ that aren't in the list."""
    return sorted(set(docs) - set(PAGES))
