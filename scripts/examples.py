#!/usr/bin/env python3
"""Whether each example in a doc comment of a library, and in the pages on calling, is code that is proved, and each contract that a page
quotes is one of the library: so none can go stale.

    examples.py REPOSITORY

The lines of an example, without their indentation, have to stand in one file of a test_ or docs_ crate, one after another. So have those of each
paragraph of a page's code, or in a file of a crate that shows a use; what a page imports is left out. A contract that is quoted stands in a
file of a library. Where a line ends makes no difference: the formatter may divide a long pattern.
"""
import pathlib
import re
import sys


def examples_of(text):
    """Yields the line on which each example of a source begins, and its lines."""
    block = None
    for number, line in enumerate(text.split("\n"), 1):
        comment = re.match(r"\s*//[/!] ?(.*)", line)
        if not comment:
            block = None
        elif comment[1].startswith("```"):
            if block:
                yield block[0], block[1]
            # a fence with a word behind it holds no code
            block = None if block or comment[1] != "```" else (number, [])
        elif block:
            block[1].append(comment[1].strip())


def paragraphs_of(page, language):
    """Yields the line on which each paragraph of a page's code in this language begins, and its lines, without what it imports."""
    is_code, start, lines = False, 0, []
    for number, line in enumerate(page.split("\n"), 1):
        is_fence = line.startswith("```")
        if lines and (is_fence or not line.strip()):
            yield start, lines
            lines = []
        if is_fence:
            is_code = not is_code and line == f"```{language}"
        elif is_code and line.strip() and not line.startswith(("use ", "ghost use ", "#![")):
            start = start if lines else number
            lines.append(line.strip())


def joined(lines):
    """Returns lines as one, with a space between two tokens only where one needs it, and with no comma before the end of a list."""
    text = re.sub(r"\s*(\W)\s*", r"\1", " ".join(line.strip() for line in lines))
    return re.sub(r",([)}\]])", r"\1", text)


def is_in(wanted, text):
    """Whether the text has these tokens, and not only a part of the first one or of the last one."""
    begins, ends = r"\b" * bool(re.match(r"\w", wanted)), r"\b" * bool(re.search(r"\w$", wanted))
    return bool(re.search(begins + re.escape(wanted) + ends, text))


def text_of(path):
    """Returns the text of a file as one line."""
    return joined(path.read_text(encoding="utf-8").split("\n"))


def main():
    repository = pathlib.Path(sys.argv[-1])
    crates = repository / "crates"
    family_of = {path: path.relative_to(crates).parts[0].split("_")[0] for path in sorted(crates.glob("*/src/**/*.rt"))}
    tests = [text_of(path) for path, family in family_of.items() if family in ("docs", "test")]
    uses = [text_of(path) for path, family in family_of.items() if family == "use"]
    sources = [path for path, family in family_of.items() if family not in ("docs", "test", "use")]
    pages = [repository / "CALLING.md", *sorted((repository / "docs/calling").glob("*.md"))]
    examples = [(path, *found, tests) for path in sources for found in examples_of(path.read_text(encoding="utf-8"))]
    examples += [(path, *found, tests + uses) for path in pages for found in paragraphs_of(path.read_text(encoding="utf-8"), "rust")]
    quotes = repository / "docs/calling/contracts.md"
    libraries = [text_of(path) for path in sources]
    examples += [(quotes, *found, libraries) for found in paragraphs_of(quotes.read_text(encoding="utf-8"), "text")]
    status = 0
    for path, number, lines, texts in examples:
        if not any(is_in(joined(lines), text) for text in texts):
            what = "contract of a library" if texts is libraries else "code of a test_ or docs_ crate"
            print(f"test: the code at {path}:{number} is no {what}", file=sys.stderr)
            status = 1
    return status


if __name__ == "__main__":
    sys.exit(main())
