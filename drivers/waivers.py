"""What is known of a driver: differences that the Khronos texts allow, and faults that have a name.

A line is `allow CALL EXPECTED FOUND [in NAMES] [behind CALLS] [cured WORD] # reason`, or `known ID CALL EXPECTED FOUND ..`. The words are patterns as a shell's. EXPECTED and FOUND are those of the difference; of pixels they are `pixels`, or `zeros` where each that differs is to be zero, and was never written or lies outside, and the largest step, and of a log that is cut `answer` and the word of the crash; a free run that dies is the call `run`. NAMES is a pattern of the traces' names, with `_` for spaces, and CALLS one of a call that the log has before the difference. What is cured by a word of `play --cure` is played again so, and only what is left then counts. None is by a line.
"""
import os
import re
from dataclasses import dataclass
from fnmatch import fnmatchcase

FORM = re.compile(r"(?:allow|known (?P<id>\S+)) (?P<call>\S+) (?P<expected>\S+) (?P<found>\S+)(?: in (?P<names>\S+))?(?: behind (?P<before>\S+))?(?: cured (?P<cure>\S+))? # (?P<reason>.+)")


@dataclass
class Waiver:
    text: str
    call: str
    expected: str
    found: str
    names: str
    before: str
    cure: str = None
    used: int = 0

    def covers(self, name, difference, calls):
        call, expected, found = words_of(difference)
        if self.before and not any(line < difference.line and fnmatchcase(made, self.before) for line, made in calls):
            return False
        return fnmatchcase(call, self.call) and fnmatchcase(expected, self.expected) and fnmatchcase(found, self.found) and fnmatchcase(name.replace(" ", "_"), self.names)


def words_of(difference):
    """The call, what is expected and what was found, as waivers have them."""
    if difference.kind == "pixels":
        return difference.name, "zeros" if difference.is_zero else "pixels", difference.text.split()[2]
    return difference.name, difference.expected, difference.found


def read_waivers(path):
    """The waivers of a file, and of those that it includes; none where it isn't there."""
    found = []
    if not os.path.exists(path):
        return found
    with open(path, encoding="utf-8") as file:
        lines = file.read().split("\n")
    for number, line in enumerate(lines, 1):
        if not line.strip() or line.startswith("#"):
            continue
        if line.startswith("include "):
            found += read_waivers(os.path.join(os.path.dirname(path), line.removeprefix("include ").strip()))
            continue
        parts = FORM.fullmatch(line.strip())
        if not parts:
            raise SystemExit(f"{path}: line {number} is no waiver: {line}")
        found.append(Waiver(line.strip(), parts["call"], parts["expected"], parts["found"], parts["names"] or "*", parts["before"], parts["cure"]))
    return found


def calls_of(log):
    """The calls of a log with their lines."""
    return [(number, words[3] if words[1].startswith("$") else words[1]) for number, words in enumerate((line.split() for line in log.split("\n")), 1) if len(words) > 1 and words[0].isdigit()]


def cure_of(waivers, name, differences, log):
    """A waiver of a fault that the player can cure, where a difference may be its, and nothing else covers that."""
    calls = calls_of(log)
    for difference in differences:
        covering = [waiver for waiver in waivers if waiver.covers(name, difference, calls)]
        if covering and all(waiver.cure for waiver in covering):
            return covering[0]
    return None


def waive(waivers, name, differences, log):
    """The differences that nothing waives. An error that is asked for behind a waived difference goes with it."""
    left, noted, calls = [], set(), calls_of(log)
    for difference in differences:
        waiver = next((waiver for waiver in waivers if not waiver.cure and waiver.covers(name, difference, calls)), None)
        is_consequence = difference.name in ("eglGetError", "glGetError") and difference.expected in noted
        if waiver:
            waiver.used += 1
        if (waiver or is_consequence) and difference.kind == "outcome":
            noted.update(difference.expected.split(","))
        if not waiver and not is_consequence:
            left.append(difference)
    return left
