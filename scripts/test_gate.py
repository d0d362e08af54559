#!/usr/bin/env python3
"""Tries what the gate hands to the static library, by the kit's own stamps, on a repository of two crates. It proves nothing."""
import pathlib
import subprocess
import sys
import tempfile

import gate

# The kit whose own functions are known to make these stamps. Of another one the gate may know nothing, and then proves more.
KNOWN = "rattle-kit-13b"


def make_repository(root, text):
    root.mkdir()
    (root / "HANDLES").write_text("Handles allowed: none.\n", encoding="utf-8")
    (root / "crates.txt").write_text("lower:\nupper: lower\n", encoding="utf-8")
    for name in ("lower", "upper"):
        (root / "crates" / name / "src").mkdir(parents=True)
        (root / "crates" / name / "src/lib.rt").write_text(f"//! {text}\n#![tactic(auto)]\n", encoding="utf-8")
    return root


def stamps_of(root):
    """Returns the stamp of each library of a repository that has one."""
    return {it.parts[-4]: it.read_text(encoding="utf-8") for it in root.glob("crates/*/out/rlib/stamp")}


def faults_of(room):
    """Returns what is wrong, or None where the gate does not know the kit."""
    copy, one, other = (make_repository(room / name, name) for name in ("copy", "one", "other"))
    built = copy / "crates/lower/out/rlib/lower.rlib/format"
    built.parent.mkdir(parents=True)
    built.write_text("lower", encoding="utf-8")
    if not gate.hand_over(copy, one, "upper") or not gate.hand_over(copy, other, "upper"):
        return None
    faults = []
    if list(stamps_of(one)) != ["lower"] or not stamps_of(one)["lower"]:
        faults.append(f"the library below is not handed over with a stamp, but {stamps_of(one)}")
    if not (one / "crates/lower/out/rlib/lower.rlib/format").exists():
        faults.append("what was built is not handed over")
    if stamps_of(one) == stamps_of(other):
        faults.append("the stamp does not depend on the sources")
    (one / "crates/lower/out/rlib/stamp").write_text("its own", encoding="utf-8")
    if gate.hand_over(copy, one, "upper") or stamps_of(one) != {"lower": "its own"}:
        faults.append("a library of the repository's own is replaced")
    return faults


def main():
    with tempfile.TemporaryDirectory(prefix="test-gate-") as room:
        faults = faults_of(pathlib.Path(room))
    if faults is None:
        version = subprocess.run(["rt", "version"], capture_output=True, text=True, check=True).stdout
        faults = ["nothing is handed over, though the kit is known"] if KNOWN in version else []
    for fault in faults:
        print(f"test_gate: {fault}", file=sys.stderr)
    print(f"test_gate: {'FAILED' if faults else 'passed'}")
    return 1 if faults else 0


if __name__ == "__main__":
    sys.exit(main())
