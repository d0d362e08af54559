#!/usr/bin/env python3
"""What `./test --quick` does once the sources were looked at: all tests and programs as `rt try` runs them, with checks and without proof.

    quick.py REPOSITORY

They run side by side, as many as there are processors and memory for. The tests of a crate count as one, and so does a program, of which the
output and the status are compared with its files `stdout` and `status`, and so do the tests in C and Rust, if they were tried: that takes a
`lib/libflurry.a` of these sources, since no static library is made without its proofs. The last line is 'N passed, M failed', and the one
above it says that nothing was proved.
"""
import collections
import os
import pathlib
import re
import signal
import subprocess
import sys
import tempfile
import time

# What the tests of a crate take at most, and a program, in bytes, with the check of names that `rt try` has beside them.
MEMORY = {True: 5_500_000_000, False: 2_500_000_000}
# What the tests of a crate may take to run, and a program, in seconds.
LIMIT = 300
ENDED = re.compile(r"run=ended status=(\d+) .*proved=no")
RESULT = re.compile(r"(?m)^test result: ok\. (\d+) passed; 0 failed;")


def text_of(path):
    """Returns what a file has, or nothing where there is none."""
    return path.read_bytes().decode(errors="surrogateescape") if path.is_file() else ""


class Task(collections.namedtuple("Task", "folder is_tests")):
    """The tests of a crate, or its program."""

    def __str__(self):
        return f"the tests of {self.folder.name}" if self.is_tests else f"the program {self.folder.name}"

    def memory(self):
        return MEMORY[self.is_tests]

    def words(self):
        """Returns the words of its run, with the arguments and the data that `rt ci` gives it."""
        words = ["rt", "try", *["--test"] * self.is_tests, "--seconds", str(LIMIT)]
        if self.is_tests:
            return words
        for path in sorted((self.folder / "data").rglob("*")):
            if path.is_file():
                words += ["--data", f"{path.relative_to(self.folder / 'data')}={path}"]
        return [*words, "--", *text_of(self.folder / "args").splitlines()]

    def faults(self, status, output, errors):
        """Yields what is wrong with a run of it that wrote this."""
        ended = ENDED.fullmatch(errors.rstrip("\n").rpartition("\n")[2])
        wanted = 0 if self.is_tests else int(text_of(self.folder / "status").strip() or 0)
        if not ended:
            yield f"did not end, by the status {status} of rt try"
        elif int(ended[1]) != wanted:
            yield f"ended with status {ended[1]}, and not {wanted}"
        if self.is_tests and not RESULT.search(output):
            yield "did not all pass"
        if not self.is_tests and output != text_of(self.folder / "stdout"):
            yield "wrote something else than its file stdout has"


class Run:
    """A task that runs, in a session of its own, so that a signal of the terminal goes to this script alone."""

    def __init__(self, task, room):
        self.task, self.began, self.process = task, time.time(), None
        self.files = [pathlib.Path(room, f"{task.folder.name}.{task.is_tests}.{name}") for name in ("output", "errors")]

    def start(self):
        given = self.task.folder / "stdin"
        given = given if given.is_file() and not self.task.is_tests else "/dev/null"
        with open(given, "rb") as given, open(self.files[0], "wb") as output, open(self.files[1], "wb") as errors:
            how = {"stdin": given, "stdout": output, "stderr": errors, "start_new_session": True}
            self.process = subprocess.Popen(self.task.words(), cwd=self.task.folder, **how)

    def has_ended(self):
        return self.process.poll() is not None

    def tell(self):
        """Says how it ended, with what it wrote where something is wrong. Returns whether nothing is, and how many tests passed."""
        output, errors = map(text_of, self.files)
        wrong = list(self.task.faults(self.process.returncode, output, errors))
        passed = RESULT.search(output) if self.task.is_tests else None
        tests = f", {passed[1]} tests" if passed else ""
        print(f"quick: {self.task}: {'; '.join(wrong) or 'passed'}{tests}, in {time.time() - self.began:.0f} seconds", flush=True)
        if wrong:
            print((output + errors).encode(errors="replace").decode(), flush=True)
        return not wrong, int(passed[1]) if passed else 0


def end_all(running):
    """Ends runs before their time. `rt try` ends what it started, where it is told to end."""
    signal.signal(signal.SIGINT, signal.SIG_IGN)
    those = [run.process for run in running if run.process]
    for process in those:
        process.terminate()
    for process in those:
        try:
            process.wait(20)
        except subprocess.TimeoutExpired:
            process.kill()


def tasks_of(repository):
    """Returns the tests and then the programs of the repository, those first that stand on most code, since they take longest."""
    lines = [line.partition("#")[0].partition(":") for line in (repository / "crates.txt").read_text(encoding="utf-8").splitlines()]
    below = {name.split()[0]: rest.split() for name, _, rest in lines if name.strip()}
    texts = {it: [path.read_bytes() for path in (repository / "crates" / it / "src").rglob("*.rt")] for it in below}
    sizes = {it: sum(map(len, texts[it])) for it in below}
    names = sorted(below, key=lambda it: -sizes[it] - sum(sizes.get(other, 0) for other in below[it]))
    crates = repository / "crates"
    tests = [Task(crates / it, True) for it in names if any(b"#[test]" in text for text in texts[it])]
    return tests + [Task(crates / it, False) for it in names if (crates / it / "src/main.rt").is_file()]


def available():
    """Returns how many bytes of memory the machine has to give."""
    return 1024 * int(re.search(r"(?m)^MemAvailable: +(\d+)", pathlib.Path("/proc/meminfo").read_text(encoding="ascii"))[1])


def next_of(waiting, running, processors, budget, free):
    """Returns the first task that there is room for beside those that run, or None: there is for one, if none runs. No more are taken to have
    their memory than the budget has, since what has just started has not taken its own yet, nor than is free now."""
    if len(running) >= processors:
        return None
    room = min(budget - sum(it.memory() for it in running), free)
    return next((it for it in waiting if not running or it.memory() <= room), None)


def run_all(tasks, room, running):
    """Runs all tasks. Returns how many of them passed, and how many tests of crates."""
    waiting, passed, tests, budget = list(tasks), 0, 0, available()
    while waiting or running:
        task = next_of(waiting, [it.task for it in running], len(os.sched_getaffinity(0)), budget, available())
        if task:
            waiting.remove(task)
            running.append(Run(task, room))
            running[-1].start()
        else:
            time.sleep(0.2)
        for run in [it for it in running if it.has_ended()]:
            running.remove(run)
            is_well, number = run.tell()
            passed, tests = passed + is_well, tests + number
    return passed, tests


def try_foreign(repository):
    """Tries the library from C and from Rust. Returns how many of such tests passed, and how many were tried."""
    status = subprocess.run([repository / "scripts/foreign.sh", "--built"], check=False).returncode
    return {0: (1, 1), 3: (0, 0)}.get(status, (0, 1))


def stop(number, _frame):
    sys.exit(128 + number)


def main():
    repository, started, running = pathlib.Path(sys.argv[1]).resolve(), time.time(), []
    for number in (signal.SIGINT, signal.SIGTERM, signal.SIGHUP):
        signal.signal(number, stop)
    tasks = tasks_of(repository)
    with tempfile.TemporaryDirectory(prefix="flurry-quick-") as room:
        try:
            passed, tests = run_all(tasks, room, running)
        finally:
            end_all(running)
    signal.signal(signal.SIGINT, stop)
    of_foreign, tried = try_foreign(repository)
    passed, tried = passed + of_foreign, len(tasks) + tried
    print(f"quick: {tests} tests of {sum(it.is_tests for it in tasks)} crates passed, in {(time.time() - started) / 60:.1f} minutes")
    print("quick: NOTHING WAS PROVED; ./test proves")
    print(f"{passed} passed, {tried - passed} failed")
    return 1 if passed < tried else 0


if __name__ == "__main__":
    sys.exit(main())
