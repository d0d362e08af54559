#!/usr/bin/env python3
"""Whether each test that docs/RUST_TESTS.md names is one of a crate's, and whether each of its tables has as many rows as the heading says.
Each fault is told on standard error.

    rust_tests.py REPOSITORY
"""
import pathlib
import re
import sys

HEADING = re.compile(r"## `(.+)`, (\d+) tests?")
ROW = re.compile(r"\| `([\w:]+)` \| (.+?) \| (.*?) ?\|")


def tests_of(repository):
    """Returns the paths of all tests, each with its crate and its modules."""
    found = set()
    for path in repository.glob("crates/*/src/**/*.rt"):
        modules = path.relative_to(repository / "crates").with_suffix("").parts
        for name in re.findall(r"#\[test\]\s+fn (\w+)", path.read_text(encoding="utf-8")):
            found.add("::".join((modules[0], *modules[2:], name)))
    return found


def faults_of(page, tests):
    """Yields what is wrong with the page."""
    heading, rows, names = None, 0, []
    for line in [*page.split("\n"), "## "]:
        if line.startswith("## "):
            if heading and len(names) != int(heading[2]):
                yield f"{heading[1]} has {len(names)} rows"
            heading, names = HEADING.fullmatch(line), []
        row = ROW.fullmatch(line)
        if not row or not heading:
            continue
        if row[1] in names:
            yield f"{heading[1]} has {row[1]} twice"
        names.append(row[1])
        rows += 1
        named = re.findall(r"`(\w+(?:::\w+)+)`", row[2])
        if not named and (row[2] != "none" or not row[3]):
            yield f"{row[1]} of {heading[1]} names no test, and says not why"
        for name in named:
            if name not in tests:
                yield f"{row[1]} of {heading[1]} names {name}, which is no test"
    if f"It has {rows} tests" not in page:
        yield f"it has {rows} rows, and says another number"


def main():
    repository = pathlib.Path(sys.argv[1])
    page = repository / "docs/RUST_TESTS.md"
    faults = list(faults_of(page.read_text(encoding="utf-8"), tests_of(repository)))
    for fault in faults:
        print(f"test: {page}: {fault}", file=sys.stderr)
    return 1 if faults else 0


if __name__ == "__main__":
    sys.exit(main())
