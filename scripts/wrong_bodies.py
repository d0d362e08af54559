#!/usr/bin/env python3
"""Tries the wrong bodies of crates/NAME/must-fail/*.edit, many at a time: each has to be refused by a contract.

    wrong_bodies.py [--jobs N] [--anew] REPOSITORY BUILT [CRATE..]

REPOSITORY has the edits. BUILT is a copy of it, or the same folder, in which `rt ci` passed: its libraries are read, and nothing there is
changed. The last line is 'N refused, M failed'; the status is 1 where one failed.

A proof is of one function, and stands on the contracts of what that function calls, never on a body. So edits in different functions are
tried by one check, and each function has a verdict of its own there. An edit is refused where a function that it turns has a goal of its
own that is not met. One whose function only waits for the proof of another is tried again without the refused ones. One that stands in no
function goes alone, and so do all of a batch in which a function that no edit turns has such a goal.

Where an earlier run on this machine saw all edits of a crate refused, over the same texts of it and of all below it, by the same kit and the
same scripts, that is taken, but with --anew.
"""
import argparse
import concurrent.futures
import dataclasses
import functools
import os
import pathlib
import re
import shutil
import signal
import subprocess
import sys
import tempfile
import threading

import edits
import verdicts
from kept import PARTS, Kept

REFUSED, LET_THROUGH, BAD, WRONG_REASON, NOT_TRIED, WAITS = "refused", "LET THROUGH", "BAD EDIT", "WRONG REASON", "NOT TRIED", "waits"


@dataclasses.dataclass
class Crate:
    """A crate of the repository, and how the prover is called for it."""

    name: str
    folder: pathlib.Path
    words: list
    seconds: float = 0.0
    rounds: int = 0
    # the prover's path of each function, once a check of the whole crate has told them
    paths: tuple = ()
    is_whole: bool = False


@dataclasses.dataclass
class Check:
    """What one check came to."""

    status: int
    printed: str

    @functools.cached_property
    def found(self):
        return verdicts.verdicts_of(self.printed)

    @property
    def last(self):
        return self.printed.rstrip("\n").rpartition("\n")[2]


def libraries_of(repository):
    """Returns what each line of crates.txt names."""
    lines = (line.partition("#")[0].partition(":") for line in (repository / "crates.txt").read_text().split("\n"))
    return {name.split()[0]: libraries.split() for name, _, libraries in lines if name.strip()}


def below(name, libraries):
    """Returns the crates of the repository that a crate stands on, lowest first."""
    found = []
    for library in libraries[name]:
        if library in libraries:
            found += [it for it in [*below(library, libraries), library] if it not in found]
    return found


def kit_folder():
    """Returns the folder of the kit, whose first page `rt doc` names."""
    return pathlib.Path(subprocess.run(["rt", "doc"], capture_output=True, text=True, check=True).stdout.strip()).parent


def words_for(name, folder, built, libraries, kit):
    """Returns the words of a check over the libraries that `rt ci` built."""
    root = "src/main.rt" if (folder / "src/main.rt").exists() else "src/lib.rt"
    words = [f"{kit}/bin/rattle", "check", "--crate-name", name, root, "--extern", f"std={kit}/rlibs/std.rlib"]
    for library in libraries[name]:
        place = f"{built}/crates/{library}/out/rlib" if library in libraries else f"{kit}/rlibs"
        words += ["--extern", f"{library}={place}/{library}.rlib"]
    for place in [f"{kit}/rlibs", *(f"{built}/crates/{it}/out/rlib" for it in below(name, libraries))]:
        words += ["-L", f"dependency={place}"]
    return [*words, "--antt-project", f"{kit}/rattle/logic/antt-project.json", "--logic-built", f"{kit}/logic_built", "--jobs", "1"]


def checked(crate, batch, work, only=()):
    """Checks a copy of the crate with these edits in it, over what earlier checks of it kept."""
    texts = {}
    for edit in batch:
        texts = edit.apply(texts)
    with tempfile.TemporaryDirectory(prefix="wrong-bodies-") as room:
        for part in PARTS:
            if (crate.folder / part).is_dir():
                shutil.copytree(crate.folder / part, f"{room}/{part}")
        for file, text in texts.items():
            pathlib.Path(room, file).write_text(text, encoding="utf-8")
        words = [*crate.words, "--incremental", work]
        for path in only:
            words += ["--only", path]
        status, printed, seconds = run_alone(words, room)
        crate.seconds += seconds
        return Check(status, printed)


def run_alone(words, folder):
    """Runs a command there, and returns its status, what it printed, and the processor seconds that it and all that it started took."""
    how = {"stdin": subprocess.DEVNULL, "stdout": subprocess.PIPE, "stderr": subprocess.STDOUT, "text": True, "errors": "replace"}
    with subprocess.Popen(words, cwd=folder, **how) as run:
        printed = run.stdout.read()
        _, status, used = os.wait4(run.pid, 0)
        run.returncode = os.waitstatus_to_exitcode(status)
    return run.returncode, printed, used.ru_utime + used.ru_stime


def batch_of(left):
    """Returns edits that can be tried together, no two in one function: where each stands in none, the first alone."""
    placed = [edit for edit in left if edit.functions]
    batch, taken, texts = [], set(), {}
    for edit in placed:
        if taken & {*edit.functions}:
            continue
        try:
            texts = edit.apply(texts)
        except edits.BadEdit:
            # another edit of the batch turns the same text
            continue
        batch.append(edit)
        taken |= {*edit.functions}
    return batch or left[:1]


def paths_of(edit, found):
    """Returns the prover's paths of the functions that an edit turns."""
    return [path for function in edit.functions for path in verdicts.paths_of(function, found)]


def judged(edit, found):
    """Returns what an edit of a batch came to, and the reason, by the verdicts of the functions that it turns."""
    own = [found[path] for path in paths_of(edit, found)]
    goal = next((it.goal for it in own if it.goal), "")
    misses = next((it.misses for it in own if it.misses), "")
    if goal:
        return REFUSED, goal
    if own and all(it.is_proved for it in own):
        return LET_THROUGH, "its function is proved"
    if misses and not any(it.waits for it in own):
        return WRONG_REASON, misses
    return WAITS, "its function is not found, or waits for another"


def judged_alone(edit, check):
    """Returns what an edit came to that was the only one of its check, and the reason. Any line of an error tells, also one of a lemma."""
    if check.status == -signal.SIGKILL:
        return NOT_TRIED, "its check was killed, most likely for memory"
    if check.status == 0:
        return LET_THROUGH, "the crate is proved with it"
    if check.status == 3 and verdicts.LIMIT.search(check.printed):
        return REFUSED, f"at a limit of the prover: {check.last}"
    if check.status != 1:
        return NOT_TRIED, f"its check ended with status {check.status}: {check.last}"
    lines = verdicts.lines_of(check.printed)
    unread = next((line for line in lines if verdicts.is_unread(line, [file for file, _, _ in edit.pairs])), "")
    if unread or not re.match("logic=not-proved|only=", check.last):
        return BAD, unread or next((line for line in lines if "error" in line), check.last)
    told = [line for line in lines if verdicts.is_told(line)]
    goal = next((line for line in told if not verdicts.NAMES_ALONE.search(line)), "")
    missed = next(iter(told), "") or next((line for line in lines if verdicts.NOT_COVERED in line), "")
    return (WRONG_REASON, missed) if missed and not goal else (REFUSED, goal or check.last)


def is_reached(check):
    """Whether a check reached the prover."""
    return check.status in (0, 1, 3) and bool(check.found)


def is_sound(batch, found):
    """Whether each goal that is not met is one of a function that an edit turns: else an edit reaches beyond its function."""
    turned = {path for edit in batch for path in paths_of(edit, found)}
    return all(path in turned for path, verdict in found.items() if verdict.goal or verdict.misses)


def names_for(batch, known):
    """Returns the paths of the functions that a batch turns, by which the prover checks these and what they call alone: the known ones, and
    else their ends."""
    return sorted({path for edit in batch for function in edit.functions for path in verdicts.paths_of(function, known) or [end_of(*function)]})


def end_of(module, block, name):
    """Returns the end of a function's path."""
    return "::".join(part for part in (block or module, name) if part)


def checked_by_name(crate, batch, work):
    """Checks the functions that the batch turns and those that they call: the whole crate where an edit stands in none, or a name fits none.
    Where a name fitted another function, what is told of the others counts, and the next check is of the whole crate."""
    if all(edit.functions for edit in batch) and not crate.is_whole:
        check = checked(crate, batch, work, names_for(batch, crate.paths))
        crate.is_whole = check.status == 2 or (check.status in (0, 1) and bool(check.found) and not are_found(batch, check.found))
        if not crate.is_whole or (check.status != 2 and len(batch) > 1):
            return check
    check = checked(crate, batch, work)
    if are_found(batch, check.found):
        # from now on a name is the very path
        crate.paths, crate.is_whole = tuple(check.found), False
    return check


def are_found(batch, found):
    """Whether each function that the batch turns has a verdict."""
    return all(verdicts.paths_of(function, found) for edit in batch for function in edit.functions)


def tried(crate, group, work, say):
    """Tries each edit of the group, and yields it with what it came to and the reason."""
    groups = [group] if group else []
    while groups:
        group = groups.pop()
        batch = batch_of(group)
        rest = [edit for edit in group if edit not in batch]
        say(f"{crate.name}: trying {len(batch)} of the {len(group) + sum(map(len, groups))} that are left")
        check = checked_by_name(crate, batch, work)
        if check.status == -signal.SIGKILL:
            check = checked_by_name(crate, batch, work)
        crate.rounds += 1
        if len(batch) == 1:
            yield batch[0], *judged_alone(batch[0], check)
        elif not is_reached(check) or not is_sound(batch, check.found):
            half = len(batch) // 2
            groups += [batch[:half], batch[half:]]
        else:
            outcomes = [(edit, *judged(edit, check.found)) for edit in batch]
            waiting = [edit for edit, outcome, _ in outcomes if outcome == WAITS]
            yield from (it for it in outcomes if it[1] != WAITS)
            # where nothing came of it, the next batch is the first of them alone
            groups += [waiting[:1], waiting[1:]] if len(waiting) == len(batch) else [waiting]
        groups = [it for it in [*groups, rest] if it]


def edits_of(crate):
    """Returns the edits of a crate, and what each came to that cannot be read or applied."""
    found, bad = [], []
    for path in sorted((crate.folder / "must-fail").iterdir()):
        try:
            if not path.is_file() or not re.fullmatch(r"[A-Za-z0-9_-][A-Za-z0-9_.-]*\.edit", path.name):
                raise edits.BadEdit("the name of an edit is of letters, digits, _, - and . and ends in .edit")
            found.append(edits.Edit(crate.folder, path))
        except (edits.BadEdit, OSError, UnicodeDecodeError) as error:
            bad.append((f"{crate.name}/{path.name}", BAD, str(error)))
    return found, bad


def try_crate(crate, kept, say):
    """Tries the edits of a crate, and returns what each came to: its label, the outcome and the reason."""
    key = kept.key_of(crate.name, below(crate.name, kept.libraries))
    outcomes = kept.give(key)
    if outcomes is not None:
        say(f"{crate.name}: {len(outcomes)} of {len(outcomes)} refused, by an earlier run on this machine over the same files")
        return outcomes
    found, outcomes = edits_of(crate)
    with tempfile.TemporaryDirectory(prefix="wrong-bodies-kept-") as work:
        outcomes += [(edit.label, outcome, reason) for edit, outcome, reason in tried(crate, found, work, say)]
    refused = [outcome for _, outcome, _ in outcomes].count(REFUSED)
    say(f"{crate.name}: {refused} of {len(outcomes)} refused, by {crate.rounds} checks, {crate.seconds:.0f} processor seconds")
    for label, outcome, reason in outcomes:
        say(f"{label}: {outcome}: {reason[:160]}")
    if refused == len(outcomes) and key == kept.key_of(crate.name, below(crate.name, kept.libraries)):
        kept.keep(key, outcomes)
    return outcomes


def jobs_here():
    """Returns how many checks this machine has processors and memory for, 3 GB each."""
    memory = int(re.search(r"MemAvailable: *(\d+) kB", pathlib.Path("/proc/meminfo").read_text())[1]) // 1_000_000
    return max(1, min(len(os.sched_getaffinity(0)), memory // 3))


def try_all(repository, built, names=(), jobs=None, is_anew=False):
    """Tries the edits of these crates, or of all that have some, side by side, and returns the crates and what each edit came to."""
    libraries, kit, crates = libraries_of(repository), kit_folder(), []
    for name in libraries:
        folder = repository / "crates" / name
        if (not names or name in names) and (folder / "must-fail").is_dir():
            crates.append(Crate(name, folder, words_for(name, folder, built, libraries, kit)))
    kept = Kept(repository, libraries, kit, is_anew)
    # the dearest first
    crates.sort(key=lambda it: -sum(file.stat().st_size for part in PARTS for file in (it.folder / part).rglob("*") if file.is_file()))
    printing = threading.Lock()

    def say(text):
        with printing:
            print(f"must-fail {text}", flush=True)

    with concurrent.futures.ThreadPoolExecutor(jobs or jobs_here()) as pool:
        outcomes = [it for of_crate in pool.map(lambda crate: try_crate(crate, kept, say), crates) for it in of_crate]
    return crates, outcomes


def failed_of(outcomes):
    """Returns those that did not come to a refusal, and says each."""
    failed = [it for it in outcomes if it[1] != REFUSED]
    for label, outcome, reason in failed:
        print(f"must-fail: not refused by a contract: {label}: {outcome}: {reason}", flush=True)
    return failed


def main():
    told = argparse.ArgumentParser(description=__doc__, formatter_class=argparse.RawDescriptionHelpFormatter)
    told.add_argument("--jobs", type=int, help="how many checks at once (as the machine has processors and memory for)")
    told.add_argument("--anew", action="store_true", help="takes nothing from earlier runs")
    told.add_argument("repository", type=pathlib.Path)
    told.add_argument("built", type=pathlib.Path)
    told.add_argument("crates", nargs="*")
    given = told.parse_args()
    crates, outcomes = try_all(given.repository.resolve(), given.built.resolve(), given.crates, given.jobs, given.anew)
    failed = failed_of(outcomes)
    print(f"wrong bodies: {sum(crate.seconds for crate in crates) / 60:.1f} processor minutes")
    print(f"{len(outcomes) - len(failed)} refused, {len(failed)} failed")
    return 1 if failed else 0


if __name__ == "__main__":
    sys.exit(main())
