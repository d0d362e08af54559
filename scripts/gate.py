#!/usr/bin/env python3
"""What `./test` does once the sources were looked at: each proof, each wrong body, each program and each test.

    gate.py [--each] [--anew] REPOSITORY

It runs `rt ci` over a copy of the repository without its wrong bodies, and then tries these many at a time, by `wrong_bodies`. With --each
the whole is the kit's own: `rt ci` where the repository stands, which tries each wrong body by a check of its own. With --anew nothing is
taken of what earlier runs on this machine passed. The last line is 'N passed, M failed'.
"""
import argparse
import collections
import importlib.machinery
import importlib.util
import inspect
import os
import pathlib
import re
import resource
import shutil
import subprocess
import sys
import tempfile
import threading
import time

import wrong_bodies

# Of a refusal of `rt ci` these words say that no contract was tried.
NO_CONTRACT = re.compile(r"must-fail .*refused.*(only because a proof file names|does not cover)")
TICK = os.sysconf("SC_CLK_TCK")
OTHER = "linking and runs", ""


class Account:
    """Processor seconds of a process and all that it starts, by part and by crate, as they are seen twice a second."""

    def __init__(self, process):
        self.process, self.seen, self.is_over = process, {}, threading.Event()
        self.thread = threading.Thread(target=self.watch)
        self.thread.start()

    def watch(self):
        while not self.is_over.wait(0.5):
            stats = dict(filter(None, map(stat_of, filter(str.isdigit, os.listdir("/proc")))))
            for number in stats:
                if self.process in line_of(number, stats):
                    self.note(number, *stats[number][1:])

    def note(self, number, began, ticks):
        label = self.seen.get((number, began), (OTHER, 0))[0]
        # a process is seen before it becomes the program that it runs
        label = part_of(number, self.process) if label == OTHER else label
        self.seen[number, began] = label, ticks / TICK

    def close(self):
        """Returns the seconds by part, and by crate."""
        self.is_over.set()
        self.thread.join()
        parts, crates = collections.Counter(), collections.Counter()
        for (part, crate), seconds in self.seen.values():
            parts[part] += seconds
            if crate:
                crates[crate] += seconds
        return parts, crates


def stat_of(entry):
    """Returns a process, with its parent, when it began, and the ticks that it has used, or None where it has ended."""
    try:
        fields = pathlib.Path(f"/proc/{entry}/stat").read_text().rpartition(")")[2].split()
    except OSError:
        return None
    return int(entry), (int(fields[1]), int(fields[19]), int(fields[11]) + int(fields[12]))


def line_of(number, stats):
    """Returns a process and those that it descends from."""
    found = []
    while number in stats and number not in found:
        found.append(number)
        number = stats[number][0]
    return found


def part_of(number, root):
    """Returns the part of the gate that a process does, and for which crate."""
    if number == root:
        return "rt ci itself", ""
    try:
        words = pathlib.Path(f"/proc/{number}/cmdline").read_text(errors="replace").split("\0")
        place = os.readlink(f"/proc/{number}/cwd")
    except OSError:
        return OTHER
    if os.path.basename(words[0]) != "rattle" or "--crate-name" not in words:
        return OTHER
    crate = words[words.index("--crate-name") + 1]
    if "/rt-edit-" in place:
        return "wrong bodies", crate
    return ("tests" if "--test" in words else "compiling" if "--crate-checked" in words else "crates"), crate


def ci_words(is_anew):
    """Returns the words of a run of `rt ci`. A kit whose help has no word for it keeps nothing from run to run, so each of its runs is anew."""
    told = subprocess.run(["rt", "help"], capture_output=True, text=True, errors="replace", check=False)
    return ["rt", "ci", *["--anew"] * (is_anew and "--anew" in told.stdout + told.stderr)]


def run_ci(folder, is_anew):
    """Runs `rt ci` there and shows what it prints. Returns its status, its lines, and the processor seconds by part and by crate."""
    words = ci_words(is_anew)
    before = resource.getrusage(resource.RUSAGE_CHILDREN)
    lines = []
    with subprocess.Popen(words, cwd=folder, stdout=subprocess.PIPE, stderr=subprocess.STDOUT, text=True, errors="replace") as run:
        account = Account(run.pid)
        for line in run.stdout:
            lines.append(line.rstrip("\n"))
            print(lines[-1], flush=True)
        run.wait()
        parts, crates = account.close()
    after = resource.getrusage(resource.RUSAGE_CHILDREN)
    used = after.ru_utime + after.ru_stime - before.ru_utime - before.ru_stime
    parts["what was too short to be seen"] = max(0.0, used - sum(parts.values()))
    return run.returncode, lines, parts, crates


def copy_without_wrong_bodies(repository, to):
    """Copies what is in the repository, but for its history, what was built, and the wrong bodies."""
    left_out = {f"{repository}/.git"}
    for crate in (repository / "crates").iterdir():
        left_out |= {f"{crate}/out", f"{crate}/must-fail"}
    shutil.copytree(repository, to, symlinks=True, ignore=lambda at, names: [name for name in names if f"{at}/{name}" in left_out])


def counts_of(lines):
    """Returns what the last line of `rt ci` counts: how many passed, and how many failed."""
    found = re.match(r"(\d+) passed, (\d+) failed", lines[-1] if lines else "")
    return (int(found[1]), int(found[2])) if found else (0, 1)


def tell_times(parts, crates, started):
    """Says what the run took, by part, and which crates took most."""
    by_part = ", ".join(f"{part} {seconds / 60:.1f}" for part, seconds in parts.most_common() if seconds >= 6)
    print(f"test: processor minutes: {by_part}; {sum(parts.values()) / 60:.1f} in all, {(time.time() - started) / 60:.0f} minutes by the clock")
    print(f"test: the dearest crates: {', '.join(f'{crate} {seconds / 60:.1f}' for crate, seconds in crates.most_common(10))}")


def kits_crates(kit, root):
    """Returns what the kit knows of each crate of a repository. Kit 13b has another function for it than 13f."""
    kit.Crate.allowed = kit.handles_of(root)
    if len(inspect.signature(kit.crates_of).parameters) == 1:
        return kit.crates_of(root)
    kit.rtlib.Crate = kit.Crate
    return kit.rtlib.crates_below(root)


def hand_over(copy, repository, name):
    """Puts the libraries below a crate, which `rt ci` built in the copy, where `rt lib` looks for them in the repository, with the kit's stamp
    of what they are made from: so it does not prove them again. Returns whether it did.

    Kit 13b itself gives them no stamp, since `rt ci` leaves the statements of a library without their proofs, which fit only the libraries that
    they were built over. So all of them go together, from one run, and only to a repository in which no crate is built; never of an unknown kit."""
    libraries = wrong_bodies.libraries_of(repository)
    those = wrong_bodies.below(name, libraries)
    if any((repository / "crates" / it / "out").exists() for it in libraries):
        return False
    try:
        loader = importlib.machinery.SourceFileLoader("kit", str(wrong_bodies.kit_folder() / "bin/rt"))
        kit = importlib.util.module_from_spec(importlib.util.spec_from_loader("kit", loader))
        loader.exec_module(kit)
        os.chdir(repository)
        stamps = {it.name: it.stamp() for it in kits_crates(kit, str(repository)) if it.name in those}
    except (AttributeError, ImportError, OSError, TypeError, ValueError) as error:
        print(f"test: the libraries below {name} are proved once more, since this kit is unknown: {error}", file=sys.stderr)
        return False
    for it, stamp in stamps.items():
        place = repository / "crates" / it / "out/rlib"
        shutil.copytree(copy / "crates" / it / "out/rlib", place)
        (place / "stamp").write_text(stamp, encoding="utf-8")
    return True


def try_each(repository, is_anew, started):
    """The kit's own gate, whole."""
    status, lines, parts, crates = run_ci(repository, is_anew)
    tell_times(parts, crates, started)
    wrong = [line for line in lines if NO_CONTRACT.search(line)]
    for line in wrong:
        print(f"test: refused, but not by a contract: {line}", file=sys.stderr)
    passed, failed = counts_of(lines)
    print(f"{passed - len(wrong)} passed, {failed + len(wrong)} failed")
    return 1 if status or wrong or failed else 0


def try_many(repository, is_anew, started):
    """The gate: all but the wrong bodies by `rt ci`, and then these, many at a time."""
    with tempfile.TemporaryDirectory(prefix="flurry-gate-") as room:
        copy = pathlib.Path(room, "copy")
        copy_without_wrong_bodies(repository, copy)
        status, lines, parts, crates = run_ci(copy, is_anew)
        passed, failed = counts_of(lines)
        if status:
            print("test: the wrong bodies were not tried, since all else has to pass first", file=sys.stderr)
        else:
            tried, outcomes = wrong_bodies.try_all(repository, copy, is_anew=is_anew)
            for crate in tried:
                parts["wrong bodies"] += crate.seconds
                crates[crate.name] += crate.seconds
            lost = wrong_bodies.failed_of(outcomes)
            passed, failed = passed + len(outcomes) - len(lost), failed + len(lost)
        if not status and not failed:
            hand_over(copy, repository, "flurry_c")
        tell_times(parts, crates, started)
        print(f"{passed} passed, {failed} failed")
        return 1 if status or failed else 0


def main():
    told = argparse.ArgumentParser(description=__doc__, formatter_class=argparse.RawDescriptionHelpFormatter)
    told.add_argument("--each", action="store_true", help="each wrong body by a check of its own, as the kit's gate does it")
    told.add_argument("--anew", action="store_true", help="takes nothing from earlier runs")
    told.add_argument("repository", type=pathlib.Path)
    given = told.parse_args()
    return (try_each if given.each else try_many)(given.repository.resolve(), given.anew, time.time())


if __name__ == "__main__":
    sys.exit(main())
