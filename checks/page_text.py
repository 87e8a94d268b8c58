"""Reads a page of Markdown: its links, its words in backticks, its headings, its sentences. `pages.py` and its parts use it."""
import re
from collections import defaultdict
from collections.abc import Iterator
from typing import NamedTuple

LINK = re.compile(r"\]\(([^)\s]+)\)")
SPAN = re.compile(r"`([^`\n]+)`")
BLOCK = re.compile(r"^```.*?^```", re.M | re.S)
# A line of code; a list below a list begins with as many spaces.
INDENTED = re.compile(r"^ {4}(?! *\*).*$", re.M)
LIST_MARK = re.compile(r"\s*(?:[*+-]|\d+\.) ")
ANY_SPAN = re.compile(r"`[^`]+`")
LINKED = re.compile(r"!?\[([^\]]*)\]\([^)]*\)")
EMPHASIS = re.compile(r"(?<!\w)(\*+)(?=\S)([^*]+?)(?<=\S)\1")
SENTENCE_END = re.compile(r"""(?<=[.!?])[)"*_]*\s+(?=[A-Z0-9"(*_])""")


class Fault(NamedTuple):
    """A fault of a page: the word or the words where it is, and what is wrong."""

    word: str
    why: str


def without_blocks(text: str) -> str:
    """Returns a page without its blocks of code."""
    return INDENTED.sub("", BLOCK.sub(lambda it: "\n" * it[0].count("\n"), text))


def anchors(text: str) -> set[str]:
    """Returns the anchors of a page's headings, as forges make them."""
    found: set[str] = set()
    seen: defaultdict[str, int] = defaultdict(int)
    for line in re.findall(r"^#+ (.*)$", without_blocks(text), re.M):
        slug = re.sub(r"[^\w\- ]", "", re.sub(r"\]\([^)]*\)", "]", line).lower()).strip().replace(" ", "-")
        found.add(f"{slug}-{seen[slug]}" if seen[slug] else slug)
        seen[slug] += 1
    return found


def is_prose(line: str) -> bool:
    """Returns whether a line is of prose: not of a table, no heading and not empty."""
    bare = line.strip()
    return bool(bare) and not bare.startswith(("|", "#", "<!--"))


def paragraphs(bare: str) -> Iterator[str]:
    """Yields the paragraphs and the items of lists of a page without its blocks, each on one line."""
    lines: list[str] = []
    for line in [*bare.splitlines(), ""]:
        begins = LIST_MARK.match(line)
        if lines and (begins or not is_prose(line)):
            yield " ".join(lines)
            lines = []
        if is_prose(line):
            lines.append(line[begins.end() if begins else 0 :].strip())


def plain(text: str) -> str:
    """Returns prose with one word for each span of code, and of each link its text alone."""
    return LINKED.sub(r"\1", ANY_SPAN.sub("Code", text))


def sentences(bare: str) -> Iterator[str]:
    """Yields the sentences of a page without its blocks."""
    for paragraph in paragraphs(bare):
        yield from SENTENCE_END.split(plain(paragraph))


def without_emphasis(bare: str) -> str:
    """Returns a page without its code and without the asterisks around words."""
    return EMPHASIS.sub(r"\2", ANY_SPAN.sub("Code", bare))
