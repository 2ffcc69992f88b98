"""What a check says of a function that an edit is in."""

import dataclasses
import re

GOAL = re.compile(r"note: (?:\./)?(src/\S+?):(\d+):\d+: it is not proved that (.*?) \(`([^`]+)`\)(.*)")
# (what an error says may go on in the next line)
IN_PROOF = re.compile(r"(?:\./)?proofs/(\S+)/(\w+)\.antt:(\d+):\d+: error: (.*(?:\n  .*)?)")
# What says no more than that a proof names what the edit took away, or that it can't be read so.
NAMES = re.compile(
    r"has no field|is not in scope|has no `|was not admitted|is no name|operand is missing"
    r"|expected the end|cannot continue|no goal"
)
# What says no more than that an answer cites another call of the same function than the goal is of.
STEPS = re.compile(r"one has `c\.([\w-]+?)(?:-\d+)?((?:\.\w+)*)` .*the other has `c\.\1(?:-\d+)?\2`")
ENDED = re.compile(r"^only=\d+ (?:proved|holes)=\d+$", re.M)


@dataclasses.dataclass
class Target:
    """A function that is to be refused: its path, its lines in the edited file, and which of the
    function's bodies it is."""

    path: str
    file: str
    first: int
    last: int
    body: int = 0

    def function(self):
        return self.path.removesuffix(f"_wrong_{self.body}")

    def is_named(self, name):
        """Whether a name is the function's or that of a closure in it."""
        *outer, own = self.path.split("::")
        return name == self.path or name.startswith("::".join([*outer, "fn", own, ""]))

    def has_line(self, file, line):
        return file == self.file and self.first <= line <= self.last


def statuses(said, crate, target):
    """What the lines say of the function itself and of the closures in it."""
    lines = re.findall(rf"^fn {crate}::(\S+): (.*)", said, re.M)
    return [status for name, status in lines if target.is_named(name)]


def goals(said, target):
    """The function's goals that weren't proved, those for which values are known that break them first."""
    found = {}
    for file, line, _, name, rest in GOAL.findall(said):
        if target.has_line(file, int(line)):
            found[name] = found.get(name) or "allow values at which this goal is false" in rest
    named = [f"`{it}`, false at some values" for it in found if found[it]]
    return named + [f"`{it}`" for it in found if not found[it]]


def proof_errors(said, target):
    """The errors in the function's answers, and those that only say which names they lack."""
    answers, names = [], []
    for folder, file, line, text in IN_PROOF.findall(said):
        if target.is_named(folder.replace("/", "::")):
            text = re.sub(r"\s+", " ", text)
            is_shape = NAMES.search(text) or STEPS.search(text)
            is_answer = file in ("Answers", "Proof") and not is_shape
            goal, _, why = text.partition(": ")
            (answers if is_answer else names).append(f"{goal} ({file}.antt:{line}): {why}")
    return answers, names


def refusal(said, crate, target):
    """Which goal or answer of the function's own isn't proved, or None."""
    refused = [it for it in statuses(said, crate, target) if re.match(r"no(t proved| proof)\b", it)]
    if not refused:
        return None
    found = goals(said, target)
    if found:
        return f"{target.function()}: {', '.join(found)}"
    searched = [it for it in refused if "`search` did not prove" in it]
    if searched:
        return f"{target.function()}: {re.search(r'did not prove ([^;]*)', searched[0])[1]}"
    answers, _ = proof_errors(said, target)
    return f"{target.function()}: the answer to {answers[0][:140]}" if answers else None


def other_reason(said, crate, target):
    """Why a function without a refusal of its own isn't proved, or None where it is."""
    found = statuses(said, crate, target)
    if found and all(it == "proved" for it in found):
        return None
    _, names = proof_errors(said, target)
    if names:
        return f"only a proof names what the edit took away: {names[0][:160]}"
    first = next((it for it in found if it != "proved"), "")
    if first:
        return f"no goal of {target.path} is told: {first[:200]}"
    error = re.search(r"^.*\berror\b.*$", said, re.M)
    return f"nothing is told of {target.path}: {error[0][:200] if error else said.strip()[-200:]}"


def has_ended(said):
    """Whether a check came to its end, so that what it says of functions counts."""
    return bool(ENDED.search(said))
