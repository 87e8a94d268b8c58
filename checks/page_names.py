"""What the repository has, by name, and the words of a page that it doesn't have. `pages.py` uses it."""
import os
import re
from collections import defaultdict
from collections.abc import Iterator

from page_text import SPAN, Fault
from sources import CRATES, TOP, Item, modules

# What the pages name and the repository doesn't have: of Rust and the toolchain, of Jaeger, of nginx, systemd and clap, of containers.
WORDS = set("""
add_header Arc::ptr_eq ArrayString client_body_timeout client_header_timeout client_max_body_size ExecStart groupbyattrs JAEGER_ENDPOINT
JAEGER_PASSWORD JAEGER_REPORTER_FLUSH_INTERVAL jaeger_thrift JAEGER_USER jq json::Writer LimitNOFILE listening.txt MemoryMax non_idempotent openssl
Origin OTEL_BSP_MAX_EXPORT_BATCH_SIZE OTEL_BSP_SCHEDULE_DELAY OTEL_EXPORTER_JAEGER_ENDPOINT probe proxy_next_upstream proxy_pass
proxy_request_buffering RT_JOBS sha256sum SPAN_STORAGE_TYPE worker_connections
--admin --anew --collector --fail-alloc --help --init --log-level --memory --metrics-backend --now --previous --query --retry --sampling --test
--version
""".split())
PLACEHOLDER = re.compile(r"\b[A-Z]{3,}\b")
NAME = re.compile(r"[A-Za-z_]\w*(?:::[A-Za-z_]\w*)*")
PATH = re.compile(r"[\w.-]+(?:/[\w.{}*-]+)*/?")
ENDINGS = (".rt", ".antt", ".py", ".rs", ".cpp", ".c", ".md", ".edit", ".txt", ".thrift", ".hex")
READ_FOR_WORDS = (".antt", ".py", ".rs", ".thrift", ".c", ".cpp", ".transcript")
OPTION = re.compile(r"--[a-z][a-z-]*")
ALIAS = re.compile(r"= (?:\w+::)*(\w+)|;")
# After `a`, `b`: come words in backticks, with nothing but commas and `and` between.
LISTED = re.compile(r"((?:`[^`\n]+`(?:, | and )?)+): ((?:`[^`\n]+`(?:, | and )?)+)")


def files_below() -> Iterator[str]:
    """Yields the paths of the files and folders that are kept, from the top."""
    for folder, folders, files in os.walk(TOP):
        folders[:] = [it for it in folders if it not in (".git", "out", "__pycache__")]
        for name in (*folders, *files):
            yield os.path.relpath(os.path.join(folder, name), TOP)


def words_in(file: str) -> list[str]:
    """Returns the words of a file of the repository."""
    return re.findall(r"\w+", (TOP / file).read_text(encoding="utf-8"))


class Names:
    """What the repository has, by name."""

    def __init__(self) -> None:
        self.files, self.tails = set(files_below()), set[str]()
        for file in self.files:
            parts = re.sub(r"\.edit$", "", file).split("/")
            self.tails.update("/".join(parts[at:]) for at in range(len(parts)))
            self.tails.add(parts[-1] + ".edit" if file.endswith(".edit") else parts[-1])
        self.clauses: defaultdict[tuple[str, str], set[str]] = defaultdict(set)
        self.owned: defaultdict[str, set[str]] = defaultdict(set)
        self.in_file: defaultdict[str, set[str]] = defaultdict(set)
        self.options: set[str] = set()
        self.proofs: set[str] | None = None
        self.crates = {it.name for it in CRATES.iterdir() if (it / "src").is_dir()}
        self.plain = set(self.crates)
        for crate in sorted(self.crates):
            self.read_crate(crate)
        self.read_words()

    def read_crate(self, crate: str) -> None:
        """Takes in the items of a crate."""
        for module in modules(crate):
            text = module.file.read_text(encoding="utf-8")
            owners = {crate, *module.path}
            self.in_file[str(module.file.relative_to(TOP))] = {it.name for it in module.items}
            self.plain |= {*module.path, *re.findall(r"\w+", re.sub(r"//[^\n]*", "", text))}
            for item in module.items:
                self.read_item(item, owners)
            for owner in owners:
                self.owned[owner].update(module.path)

    def read_item(self, item: Item, owners: set[str]) -> None:
        """Takes in an item of a module, which has these names."""
        within = owners | {item.owner} if item.owner else owners
        for owner in within:
            self.owned[owner].add(item.name)
        for owner in within | {""}:
            self.clauses[owner, item.name].update(it.name for it in item.clauses)
        if item.kind in ("enum", "struct", "trait"):
            self.owned[item.name].update(re.findall(r"\w+", item.text))
        if item.kind == "type":
            found = ALIAS.search(item.text)
            self.owned[item.name] = self.owned[found[1] or "" if found else ""]

    def read_words(self) -> None:
        """Takes in the names of definitions, of what scripts and samples call something, and the options."""
        for file in self.files:
            if file.endswith(READ_FOR_WORDS) and "/proofs/" not in file:
                self.plain.update(words_in(file))
            if file.endswith(".py"):
                self.options.update(re.findall(r'"(--[a-z-]+)"', (TOP / file).read_text(encoding="utf-8")))
        for source in (CRATES / "commands/src").glob("*.rt"):
            words = re.findall(r'"([a-z][a-z-]*)"', source.read_text(encoding="utf-8"))
            self.options.update("--" + it for it in words)

    def has_path(self, path: str) -> bool:
        """Returns whether there is such a file or folder; `{}` and `*` stand for any name."""
        path = path.rstrip("/")
        if "*" in path or "{" in path:
            wanted = re.compile(re.sub(r"\\\*|\\\{[^}]*\\\}", "[^/]+", re.escape(path)))
            return any(wanted.fullmatch(it) for it in self.tails)
        return path in self.tails

    def has(self, name: str) -> bool:
        """Returns whether something is called so: of a path `a::b`, whether `a` has a `b`."""
        parts = name.split("::")
        if len(parts) == 1:
            return name in self.plain or self.has_path(name) or name in self.names_of_proofs()
        return parts[-1] in self.owned.get(parts[-2], ())

    def names_of_proofs(self) -> set[str]:
        """Returns the names in proofs, which are read when something is sought that nothing else has."""
        if self.proofs is None:
            files = [it for it in self.files if "/proofs/" in it and it.endswith(".antt")]
            self.proofs = {name for it in files for name in words_in(it)}
        return self.proofs

    def clauses_of(self, call: str) -> set[str]:
        """Returns the names of a call's clauses."""
        owner, _, name = call.rpartition("::")
        return self.clauses.get((owner.split("::")[-1], name), set())

    def has_clauses(self, call: str) -> bool:
        """Returns whether this is a function with a clause that has a name."""
        return any(self.clauses_of(call))


def is_path(word: str) -> bool:
    """Returns whether a word is meant as a path of the repository."""
    top = word.split("/")[0]
    known = (TOP / top).is_dir() or (CRATES / top).is_dir()
    return bool(PATH.fullmatch(word)) and "/out/" not in word and (word.endswith(ENDINGS) or ("/" in word and known))


def word_faults(names: Names, text: str) -> Iterator[Fault]:
    """Yields the words in backticks that nothing is called."""
    for word in SPAN.findall(text):
        if word in WORDS or PLACEHOLDER.search(word):
            continue
        if is_path(word):
            if not names.has_path(word):
                yield Fault(word, "no such path")
        elif NAME.fullmatch(word) and not names.has(word):
            yield Fault(word, "nothing is called so")
        for option in OPTION.findall(word):
            if option not in names.options and option not in WORDS:
                yield Fault(option, "no such option")


def pair_faults(names: Names, text: str) -> Iterator[Fault]:
    """Yields the clauses that no function before their colon has, and functions that aren't in the file before it."""
    for before, after in LISTED.findall(text):
        heads, tails = SPAN.findall(before), SPAN.findall(after)
        for tail in tails:
            if all(NAME.fullmatch(it) for it in (*heads, tail)):
                calls = [it for it in heads if names.has_clauses(it) and it not in names.crates]
                if calls and tail.islower() and not any(tail in names.clauses_of(it) for it in calls):
                    yield Fault(f"{', '.join(heads)}: {tail}", "no such clause")
            elif heads[-1].endswith(".rt") and NAME.fullmatch(tail):
                files = [it for it in names.in_file if it.endswith("/" + heads[-1])]
                if files and not any(tail.split("::")[-1] in names.in_file[it] for it in files):
                    yield Fault(f"{heads[-1]}: {tail}", "it isn't in this file")


def unused_words(texts: list[str]) -> list[str]:
    """Returns the words of WORDS that none of these texts has in backticks."""
    spans = {word for text in texts for word in SPAN.findall(text)}
    return sorted(WORDS - spans - {option for span in spans for option in OPTION.findall(span)})
