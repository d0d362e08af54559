#!/usr/bin/env python3
"""Tries `quick.py` with a false `rt`, on a repository of a few crates: what it runs, what it takes for a fault, its last lines, and that it ends
what it started. It takes some seconds, and proves nothing."""
import os
import pathlib
import signal
import subprocess
import sys
import tempfile
import time

import quick

SCRIPTS = pathlib.Path(__file__).resolve().parent

# It writes and ends as the file `does` beside the sources of a crate says, and else passes.
RT = """\
#!/usr/bin/env bash
echo "${PWD##*/} $*" >>"$CALLS"
if [[ -e does ]]; then
    source does
elif [[ $2 == --test ]]; then
    echo 'test result: ok. 7 passed; 0 failed; 0 ignored; 0 filtered out'
else
    cat
fi
echo 'run=ended status=0 runners=1 proved=no' >&2
"""

CRATES = {
    "low": {"src/lib.rt": "pub fn low() {}\n"},
    "tests": {"src/lib.rt": "#[test]\n"},
    "program": {"src/main.rt": "fn main() {}\n", "stdin": "text\n", "stdout": "text\n", "args": "a b\nc\n", "data/in/it": "it\n"},
}


def make_repository(root, more):
    """Makes a repository with these files beside those of its crates, and a false `rt`."""
    (root / "bin").mkdir(parents=True)
    (root / "bin/rt").write_text(RT, encoding="utf-8")
    (root / "bin/rt").chmod(0o755)
    (root / "scripts").mkdir()
    (root / "scripts/foreign.sh").write_text("#!/bin/sh\nexit ${FOREIGN-3}\n", encoding="utf-8")
    (root / "scripts/foreign.sh").chmod(0o755)
    (root / "crates.txt").write_text("low: # below\ntests: low\nprogram:\n", encoding="utf-8")
    files = {f"{name}/{file}": text for name, files in CRATES.items() for file, text in files.items()}
    for file, text in {**files, **more}.items():
        path = root / "crates" / file
        path.parent.mkdir(parents=True, exist_ok=True)
        path.write_text(text, encoding="utf-8")
    return root


def start(root, **more):
    how = {"stdout": subprocess.PIPE, "stderr": subprocess.STDOUT, "text": True}
    how["env"] = {**os.environ, "PATH": f"{root}/bin:{os.environ['PATH']}", "CALLS": f"{root}/calls", **more}
    return subprocess.Popen([sys.executable, "-B", str(SCRIPTS / "quick.py"), str(root)], **how)


# By name: the files of a case, what its last line is, and what it says.
CASES = {
    "all": ({}, "2 passed, 0 failed", "7 tests of 1 crates passed"),
    "failing": ({"tests/does": "echo 'test result: FAILED. 1 passed; 1 failed; 0'\n"}, "1 passed, 1 failed", "did not all pass"),
    "faulting": ({"tests/does": "echo 'test result: ok. 7 passed; 0 failed; 0'\necho run=fault proved=no >&2; exit 4\n"}, "1 passed, 1 failed", "did not end"),
    "refused": ({"program/does": "cat; echo run=none proved=no >&2; exit 1\n"}, "1 passed, 1 failed", "did not end"),
    "other output": ({"program/stdout": "other\n"}, "1 passed, 1 failed", "wrote something else"),
    "other status": ({"program/status": "2\n"}, "1 passed, 1 failed", "ended with status 0, and not 2"),
}


def faults_of_case(root, files, last, said):
    """Yields what is wrong with a run in a repository with these files."""
    run = start(make_repository(root, files))
    lines = run.communicate(timeout=60)[0].splitlines()
    if lines[-1:] != [last] or "NOTHING WAS PROVED" not in lines[-2] or not any(said in line for line in lines):
        yield f"not '{said}', and then '{last}', in {lines}"
    if run.returncode != int(not last.endswith(" 0 failed")):
        yield f"its status is {run.returncode}"


def faults_of_calls(root):
    """Yields what is wrong with the words of a run, and with what it counts of the tests in C."""
    for status, last in (("0", "3 passed, 0 failed"), ("1", "2 passed, 1 failed")):
        lines = start(root, FOREIGN=status).communicate(timeout=60)[0].splitlines()
        if lines[-1] != last:
            yield f"'{lines[-1]}', and not '{last}', where the tests in C end with status {status}"
    calls = sorted(set((root / "calls").read_text(encoding="utf-8").splitlines()))
    limit = f"--seconds {quick.LIMIT}"
    if calls != [f"program try {limit} --data in/it={root}/crates/program/data/in/it -- a b c", f"tests try --test {limit}"]:
        yield f"other calls of rt: {calls}"


def faults_of_signal(root):
    """Yields what is wrong with a run that is interrupted."""
    files = {it: f"echo $$ >>'{root}/started'; exec sleep 90\n" for it in ("tests/does", "program/does")}
    run, until = start(make_repository(root, files)), time.time() + 30
    while not (root / "started").exists() and time.time() < until:
        time.sleep(0.1)
    run.send_signal(signal.SIGINT)
    run.communicate(timeout=60)
    if run.returncode != 128 + signal.SIGINT:
        yield f"after a signal its status is {run.returncode}"
    for number in (root / "started").read_text(encoding="utf-8").split():
        if pathlib.Path(f"/proc/{number}").exists():
            yield "after a signal a run goes on"


def faults_of_room():
    """Yields what is wrong with how many run side by side."""
    tests, program = (quick.Task(pathlib.Path("it"), it) for it in (True, False))
    both, one = tests.memory() + program.memory(), tests.memory()
    cases = {
        "none runs": (([tests], [], 4, 0, 0), tests),
        "no processor is free": (([tests], [tests], 1, 9 * both, 9 * both), None),
        "all is taken by what runs": (([tests, program], [tests], 4, one, both), None),
        "a smaller one has room": (([tests, program], [tests], 4, both, both), program),
        "others took the memory": (([tests, program], [tests], 4, 9 * both, 0), None),
    }
    for name, (given, wanted) in cases.items():
        if quick.next_of(*given) != wanted:
            yield f"where {name}, {quick.next_of(*given)} is started, and not {wanted}"


def main():
    faults = list(faults_of_room())
    with tempfile.TemporaryDirectory(prefix="test-quick-") as room:
        room = pathlib.Path(room)
        for name, case in CASES.items():
            faults += [f"{name}: {it}" for it in faults_of_case(room / name, *case)]
        faults += faults_of_calls(make_repository(room / "calls", {}))
        faults += faults_of_signal(room / "signal")
    for fault in faults:
        print(f"test_quick: {fault}", file=sys.stderr)
    print(f"test_quick: {'FAILED' if faults else 'passed'}")
    return 1 if faults else 0


if __name__ == "__main__":
    sys.exit(main())
