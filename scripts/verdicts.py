"""What a check of the prover says of each function, read from what it prints."""
import dataclasses
import re

# A line on a proof file that names what an edit took away, and on what cites that proof: no contract was tried there.
NAMES_ALONE = re.compile(r"has no field|is not in scope|has no `|was not admitted")
NOT_COVERED = "does not cover"
# The prover's words for a limit of its own, at which it gives no verdict.
LIMIT = re.compile(
    r"antt ran out of (stack|the (steps|memory) that the check of one declaration may (take|use))"
    r"|(outgrew the memory limit|stopped at the step limit) \("
)

FUNCTION = re.compile(r"fn \w+::(\S+?): (proved|not proved|no proof|could not tell|assumed|not assumed)\b(.*)")
AT_PROOF = re.compile(r"(?:\./)?proofs/(.+)/(?:Answers|Invariants|Proof)\.antt:\d+:\d+: error: (.*)")
AT_SOURCE = re.compile(r"note: src/\S+:\d+:\d+: (.*)")
OPEN_GOALS = re.compile(r"`search` did not prove (`[^`]+`)")


ANY_ERROR = re.compile(r"(?:\./)?((?:src|specs|proofs)/\S+?):\d+:\d+: error: (`[^`]*`: )?(.*)")
UNREADABLE = re.compile(r"is not in scope|has no field|is no name|operand is missing|expected the end|cannot continue")


def lines_of(printed):
    """Returns the lines that the prover printed. One that goes on below, where it is indented, is one line."""
    return re.sub(r"\n +(?=\S)", " ", printed).split("\n")


def is_told(line):
    """Whether the line tells a goal that is not met, or an error."""
    return bool(ANY_ERROR.match(line) or AT_SOURCE.match(line)) and NOT_COVERED not in line


def is_unread(line, edited):
    """Whether the line says that a text of the code, of the specs or of an edited file cannot be read: no contract was tried then."""
    error = ANY_ERROR.match(line)
    if not error or (error[1].startswith("proofs/") and error[1] not in edited):
        return False
    return not error[2] or bool(UNREADABLE.search(re.sub(r"`[^`]*`", "", error[3])))


@dataclasses.dataclass
class Verdict:
    """What is said of one function: whether it is proved, a goal of its own that is not met, names that its proof misses, and whether it waits
    for the proof of another."""

    is_proved: bool
    goal: str = ""
    misses: str = ""
    waits: bool = False


def verdicts_of(printed):
    """Returns the verdict of each function, by its path below the crate."""
    goals, misses, open_here, found = {}, {}, "", {}
    for line in lines_of(printed):
        at_proof, at_source, function = AT_PROOF.match(line), AT_SOURCE.match(line), FUNCTION.match(line)
        if at_proof:
            # the folder of a cycle of calls begins with a sign +; in a block's name, one stands before each of its arguments
            path = re.sub(r"(^|/)\+", r"\1", at_proof[1]).replace("/", "::")
            (misses if NAMES_ALONE.search(at_proof[2]) else goals).setdefault(path, at_proof[2])
        elif at_source and NOT_COVERED not in line:
            # such lines stand before the line of the function that they are in
            open_here = open_here or at_source[1]
        elif function:
            path, state, rest = function.groups()
            searched = OPEN_GOALS.search(rest)
            goal = goals.get(path) or open_here or (searched[1] if searched else "")
            missed = misses.get(path) or (rest if NOT_COVERED in rest else "")
            if state in ("proved", "assumed"):
                found[path] = Verdict(True)
            else:
                found[path] = Verdict(False, goal, missed, "it calls `" in rest)
            open_here = ""
    return found


def paths_of(function, paths):
    """Returns those of the prover's paths that are the function, as `edits.function_at` tells it: none where that is not certain."""
    module, block, name = function
    if not block:
        return [path for path in paths if path == "::".join(part for part in (module, name) if part)]
    found = [path.rpartition("::")[0] for path in paths if path.rpartition("::")[2] == name]
    places = [(above.rpartition("::")[0], above.rpartition("::")[2], above) for above in found]
    # a block for certain arguments of a type goes on with these, behind a sign +
    exact = [it for it in places if it[1] == block or it[1].startswith(f"{block}+")]
    here = [it for it in exact if it[0] == module]
    # a block may stand in a private module below that of its type
    above = [it for it in exact if module.startswith(it[0])]
    # a trait's block for one type of several goes on with that type, and one for a reference or a slice begins with these
    loose = [it for it in places if it[0] == module and (it[1].startswith(block) or it[1].endswith(block))]
    chosen = here or above or exact or loose
    return [f"{it[2]}::{name}" for it in chosen] if len(chosen) == 1 else []
