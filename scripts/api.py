#!/usr/bin/env python3
"""The page docs/API.md: each public call of the maps and sets with its signature and the first sentence of its comment, and the types that
their callers match or write, from the sources.

    api.py REPOSITORY            prints the page
    api.py --check REPOSITORY    whether the page is the one that would be printed
"""
import pathlib
import re
import sys
import textwrap

HEAD = """\
# The calls, as Rust writes them

The public calls of the maps, the sets, their views, the recorded map and the memo tables, and of `flurry::pairs` and `flurry::par`, without contracts. What
each takes, when it fails and what stands then is in the comment above it in `src/`; what is proved of it in [CONTRACTS](CONTRACTS.md). `scripts/api.py` writes
this page, and the gate compares it.
"""
# Each type with the crates in whose sources its calls stand.
TYPES = [
    ("HashMap", "The map that threads share", ["flurry_shared"]),
    ("HashMapRef", "Its view", ["flurry_shared_view"]),
    ("Iter", "Its iterators: `Iter`, and `Keys` and `Values` alike", ["flurry_shared_view"]),
    ("HashSet", "The set that threads share", ["flurry_shared_set"]),
    ("HashSetRef", "Its view", ["flurry_shared_set"]),
    ("SeqMap", "The map of one owner", ["flurry_seq"]),
    ("SeqSet", "The set of one owner", ["flurry_seq_set"]),
    ("Recorded", "A map under one lock that records its calls", ["flurry_seq_recorded"]),
    ("Memo", "Values that are computed once, shared by threads", ["flurry_shared_memo"]),
    ("MemoCore", "Values that are computed once, with one owner", ["flurry_shared_memo"]),
]
# Each module of functions, which hands on those of other crates.
MODULES = [
    ("pairs", "Lists of a map's pairs, or of a set's elements, in ascending order"),
    ("par", "Calls that several threads do together"),
]
# Each type that a caller of these matches, or writes an impl of, with its file.
ITEMS = [
    ("Change", "flurry_base/src/change.rt"),
    ("TryInsertError", "flurry_base/src/try_insert.rt"),
    ("FromPairsError", "flurry_seq_pairs/src/faults.rt"),
    ("KeyHasher", "flurry_base/src/hash.rt"),
    ("Query", "flurry_base/src/query.rt"),
    ("HashedQuery", "flurry_base/src/query.rt"),
]
BLOCK = re.compile(r"(?m)^impl\b[^{;]*?\{")
CALL = re.compile(r"(?m)^    pub fn (\w+)")


def blocks_of(text, name):
    """Yields the text of each block of the type that is for no trait."""
    for block in BLOCK.finditer(text):
        head = re.sub(r"\s+", " ", block[0])
        of = re.sub(r"^impl(<.*?>)? (?=[A-Z])", "", head)
        if " for " not in head and re.match(rf"{name}\b", of):
            yield text[block.end() : text.index("\n}\n", block.end())]


def signature_of(block, at):
    """Returns what stands from `pub fn` on to the clauses or the body, in one line."""
    head = re.split(r"(?m)^ *(?:requires|ensures|ghost)\b|\{$", block[at:], maxsplit=1)[0]
    line = re.sub(r"\s+", " ", head).replace("( ", "(").replace(", )", ")").replace("< ", "<").replace(",>", ">").replace(", >", ">")
    return line.strip().rstrip(",")


def comment_of(block, at):
    """Returns the first sentence of the comment above a call."""
    lines = []
    for line in reversed(block[:at].rstrip("\n").split("\n")):
        if line.strip().startswith("///"):
            lines.insert(0, line.strip()[3:].strip())
        elif not line.strip().startswith(("#[", "//")):
            break
    paragraph = " ".join(lines).strip() if "" not in lines else " ".join(lines[: lines.index("")])
    return re.match(r".*?[.:](?= [A-Z`\[]|$)|.*", paragraph)[0].rstrip(":")


def calls_of(repository, name, crates):
    """Yields the signature and the comment of each public call of the type."""
    for crate in crates:
        for file in sorted((repository / "crates" / crate / "src").rglob("*.rt")):
            for block in blocks_of(file.read_text(encoding="utf-8"), name):
                for call in CALL.finditer(block):
                    yield signature_of(block, call.start()), comment_of(block, call.start())


def head_of(repository, name, crates):
    """Returns a type with its parameters and their defaults."""
    for crate in crates:
        for file in sorted((repository / "crates" / crate / "src").rglob("*.rt")):
            head = re.search(rf"pub struct ({name}<[^{{]*?>) \{{", file.read_text(encoding="utf-8"))
            if head:
                return re.sub(r"\s+", " ", head[1]).replace("< ", "<").replace(", >", ">")
    raise LookupError(name)


def functions_of(repository, module):
    """Yields the signature and the comment of each function that a module of the library's face hands on, under the name that it has there."""
    crates = repository / "crates"
    text = (crates / f"flurry/src/{module}.rt").read_text(encoding="utf-8")
    for crate, file, names in re.findall(r"pub use (\w+)::(\w+)::(\{[^}]*\}|[^;]*);", text):
        source = (crates / crate / f"src/{file}.rt").read_text(encoding="utf-8")
        for name, new in re.findall(r"(\w+) as (\w+)", names):
            at = source.index(f"pub fn {name}<")
            yield signature_of(source, at).replace(f"pub fn {name}<", f"pub fn {new}<"), comment_of(source, at)


def item_of(repository, name, file):
    """Returns the declaration of a type, without what is for proofs alone."""
    text = (repository / "crates" / file).read_text(encoding="utf-8")
    item = re.search(rf"(?ms)^pub (enum|struct|trait) {name}\b.*?^\}}", text)[0]
    item = re.sub(r"(?m)^ *// .*\n", "", item)
    item = re.sub(r"(?m)^ *ghost .*\n", "", item)
    item = re.sub(r"\n *ensures .*?;", ";", item)
    return re.sub(r"\n\n+", "\n\n", item).replace("{\n\n", "{\n").replace("\n\n}", "\n}").replace("    ///", "    //")


def lines_of(calls):
    """Returns the lines of calls, each below its comment."""
    lines = []
    for signature, comment in calls:
        lines += [f"// {line}" for line in textwrap.wrap(comment, 117)] + [signature, ""]
    return "\n".join(lines).rstrip()


def page_of(repository):
    parts = [HEAD]
    for name, title, crates in TYPES:
        lines = lines_of(calls_of(repository, name, crates))
        parts.append(f"## `{name}`\n\n{title}: `{head_of(repository, name, crates)}`.\n\n```rust\n{lines}\n```\n")
    for name, title in MODULES:
        parts.append(f"## `flurry::{name}`\n\n{title}.\n\n```rust\n{lines_of(functions_of(repository, name))}\n```\n")
    items = "\n\n".join(item_of(repository, *item) for item in ITEMS)
    parts.append(f"## Types that a caller matches, or writes an impl of\n\n```rust\n{items}\n```\n")
    return "\n".join(parts)


def main():
    repository = pathlib.Path(sys.argv[-1])
    page = page_of(repository)
    if "--check" not in sys.argv:
        print(page, end="")
        return 0
    if (repository / "docs/API.md").read_text(encoding="utf-8") == page:
        return 0
    print("test: docs/API.md is not the page that scripts/api.py writes", file=sys.stderr)
    return 1


if __name__ == "__main__":
    sys.exit(main())
