"""What earlier runs on this machine saw of a crate's wrong bodies, by a sum of all that was read for it."""
import hashlib
import json
import os
import pathlib
import subprocess

PARTS = ("src", "specs", "proofs")
# The scripts that say what came of an edit.
JUDGES = ("edits.py", "verdicts.py", "wrong_bodies.py")


class Kept:
    """A folder of the user's, with a file for each crate whose wrong bodies were all refused. A name is the sum of what was read, so none goes
    stale. Where the folder cannot be used, nothing is kept."""

    def __init__(self, repository, libraries, kit, is_anew):
        self.repository, self.libraries, self.is_anew = repository, libraries, is_anew
        self.folder = pathlib.Path(os.environ.get("XDG_CACHE_HOME") or pathlib.Path.home() / ".cache", "flurry-wrong-bodies")
        version = subprocess.run(["rt", "version"], capture_output=True, text=True, check=True).stdout
        found = (kit / "bin/rattle").stat()
        self.base = hashlib.sha256(f"{version} {found.st_size} {found.st_mtime_ns}".encode())
        for script in JUDGES:
            self.base.update((pathlib.Path(__file__).parent / script).read_bytes())

    def key_of(self, name, below):
        """Returns the sum for a crate: of its own texts and edits, of the texts of those below it, of the kit, and of what judges."""
        key = self.base.copy()
        for crate in [*below, name]:
            folder = self.repository / "crates" / crate
            key.update(repr((crate, self.libraries[crate])).encode())
            for part in (*PARTS, *["must-fail"] * (crate == name)):
                for file in sorted(it for it in (folder / part).rglob("*") if it.is_file()):
                    key.update(repr((str(file.relative_to(folder)), file.read_bytes())).encode())
        return key.hexdigest()

    def give(self, key):
        """Returns what an earlier run saw, or None."""
        try:
            return None if self.is_anew else [tuple(it) for it in json.loads((self.folder / key).read_text(encoding="utf-8"))]
        except (OSError, ValueError, TypeError):
            return None

    def keep(self, key, outcomes):
        """Keeps what came of all the edits of a crate. The file is written apart and then renamed, so that no run meets half of it."""
        try:
            self.folder.mkdir(mode=0o700, parents=True, exist_ok=True)
            apart = self.folder / f"{key}.{os.getpid()}"
            apart.write_text(json.dumps(outcomes), encoding="utf-8")
            apart.rename(self.folder / key)
        except OSError:
            pass
