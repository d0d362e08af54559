#!/usr/bin/env python3
"""Whether each link of the repository's pages leads to a file that is there, and to a heading of it. Each fault is told on standard error.

    links.py REPOSITORY
"""
import pathlib
import re
import sys


def text_of(page):
    """Returns the text of a page without its blocks of code."""
    return re.sub(r"(?ms)^```.*?^```", "", page.read_text(encoding="utf-8"))


def anchors_of(page):
    """Returns what a link to a heading of the page can name."""
    return {re.sub(r"[^\w\- ]", "", heading.lower()).replace(" ", "-") for heading in re.findall(r"(?m)^#+ (.*)$", text_of(page))}


def faults_of(page):
    for link in re.findall(r"\]\(([^)]+)\)", text_of(page)):
        file, _, anchor = link.partition("#")
        if re.match(r"https?:", link):
            continue
        to = (page.parent / file).resolve() if file else page
        if not to.exists():
            yield f"{page}: there is no {link}"
        elif anchor and anchor not in anchors_of(to):
            yield f"{page}: {link} names no heading"


def main():
    repository = pathlib.Path(sys.argv[1])
    pages = sorted([*repository.glob("*.md"), *repository.glob("docs/**/*.md")])
    faults = [fault for page in pages for fault in faults_of(page)]
    for fault in faults:
        print(f"test: {fault}", file=sys.stderr)
    return 1 if faults else 0


if __name__ == "__main__":
    sys.exit(main())
