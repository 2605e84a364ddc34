#!/usr/bin/env python3
"""Every outcome of a short trace, by a model apart: `all_outcomes.py [PROGRAM] < TRACE`, or `all_outcomes.py random COUNT SEED PROGRAM [OUTCOMES]`.

All orders of the threads' lines are played, each from a copy of the model (thread_model.py); no order is left out for being like another. An outcome is what each line answers, and at the end the census and what windows show; handles are told by the line that made them, so orders that differ in numbers alone have one outcome. A thread whose wait blocks isn't chosen before its fence is signalled. The first outcome is that of `serial`; the others rise by the first line that they answer otherwise, and those that first differ at one line stand in the order in which they are met, where the lowest thread is tried first. Behind the trace may stand a recording: then it is told which outcome it has, which is that of the order whose recording it is but for the numbers of handles, and the status is 9 where it is none's.

A PROGRAM is asked whether the recording of the order of each outcome holds (`check`), but for stalls; the status is 1 where one doesn't. Random traces are tried so, drawn until there are COUNT with at most 2,000 orders; and where OUTCOMES is a program that lists outcomes, what it writes is compared with what is written here.
"""
import copy
import pickle
import random
import re
import subprocess
import sys
from dataclasses import dataclass, field

sys.dont_write_bytecode = True
from thread_model import ThreadModel

from driver_model import VIDEO, Window
from race_traces import RaceDraft

MOST_HISTORIES, MOST_RANDOM = 1_000_000, 2_000
WORDS = {**dict.fromkeys(("EGL_FALSE", "GL_FALSE", "EGL_DEFAULT_DISPLAY", "EGL_NO_DISPLAY", "EGL_NO_CONTEXT", "EGL_NO_SURFACE", "EGL_NO_SYNC", "EGL_NO_IMAGE"), 0), "EGL_TRUE": 1, "GL_TRUE": 1, "EGL_DONT_CARE": -1, "EGL_FOREVER": -1, "EGL_SYNC_FLUSH_COMMANDS_BIT": 1}
MAKING = ("eglCreateWindowSurface", "eglCreatePbufferSurface", "eglCreateContext", "eglCreateImage", "eglCreateSync")
HANDLES = (*MAKING, "eglGetCurrentContext", "eglGetCurrentSurface")
# Calls whose list is spelled as the model takes it.
SPELLED = ("eglCreateWindowSurface", "eglCreateContext", "eglCreateImage", "eglCreateSync")
VARIABLE = re.compile(r"\$([a-z0-9_]+)(?:\.([0-9]+))?")


@dataclass
class Line:
    number: int
    thread: int
    variable: str
    call: str
    words: list

    def asked(self):
        """The variables that must have an answer before it."""
        return {found[1] for word in self.words for found in VARIABLE.finditer(word)}


@dataclass
class Trace:
    threads: int
    windows: list = field(default_factory=list)
    video: int = VIDEO
    lines: list = field(default_factory=list)

    def of(self, thread):
        return [line for line in self.lines if line.thread == thread]


def read(text):
    rows = text.split("\n")
    trace = Trace(int(rows[0].split()[2]))
    for number, row in enumerate(rows[1:], 2):
        words = row.split()
        if not words or words[0].startswith("#"):
            continue
        if words[0] == "video":
            trace.video = int(words[1])
        elif words[0] == "window":
            identity, width, height = map(int, words[1:])
            trace.windows.append(Window(identity, width, height, [bytes(4)] * (width * height)))
        elif words[1].startswith("$"):
            trace.lines.append(Line(number, int(words[0]), words[1][1:], words[3], words[4:]))
        else:
            trace.lines.append(Line(number, int(words[0]), None, words[1], words[2:]))
    return trace


class History:
    """A state of the model, and how it came about."""

    def __init__(self, trace):
        self.trace, self.lines = trace, [trace.of(thread) for thread in range(trace.threads)]
        self.model = ThreadModel(copy.deepcopy(trace.windows), trace.video, trace.threads)
        self.next, self.order, self.answers, self.entries = [0] * trace.threads, [], {}, []
        self.values, self.lists, self.posts, self.made = {}, {}, set(), {}

    def copied(self, model):
        """The same with a model of its own, which is read from bytes: that is quicker than a copy."""
        other = copy.copy(self)
        other.model = pickle.loads(model)
        other.next, other.order, other.answers, other.entries = list(self.next), list(self.order), dict(self.answers), list(self.entries)
        other.values, other.lists, other.posts, other.made = dict(self.values), dict(self.lists), set(self.posts), dict(self.made)
        return other

    def line(self, thread):
        return self.lines[thread][self.next[thread]] if self.next[thread] < len(self.lines[thread]) else None

    def may_go_on(self, thread):
        line = self.line(thread)
        if line is None:
            return False
        if self.model.threads[thread].awaited:
            return self.model.may_end_wait(thread)
        return line.asked() <= self.values.keys() and (line.call != "await" or line.words[0] in self.posts)

    def number(self, word):
        found = VARIABLE.fullmatch(word)
        if found and found[2] is not None:
            return self.lists[found[1]][int(found[2])] if int(found[2]) < len(self.lists[found[1]]) else 0
        if found:
            return self.values[found[1]]
        return int(word, 0) if re.fullmatch(r"-?[0-9]+|0x[0-9a-f]+", word) else WORDS.get(word, word)

    def arguments(self, line):
        if line.call == "eglCreatePbufferSurface":
            items = line.words[2][1:-1].split(",")
            sides = dict(zip(items[::2], items[1::2]))
            return [*map(self.number, line.words[:2]), tuple(int(sides.get(side, 0)) for side in ("EGL_WIDTH", "EGL_HEIGHT"))]
        return [word if line.call in SPELLED and word.startswith("[") or word[:1] in "-#*" and not word[1:].isdigit() else [self.number(item) for item in word[1:-1].split(",") if item] if word.startswith("[") else self.number(word) for word in line.words]

    def step(self, thread):
        """Plays a thread's next line, or ends its wait."""
        line = self.line(thread)
        self.order.append(line.number)
        if self.model.threads[thread].awaited:
            answer = self.model.end_wait(thread)
        elif line.call in ("post", "await"):
            self.posts.add(line.words[0]) if line.call == "post" else None
            answer = "ok", 0, [], b""
        else:
            answer = self.model.play_by(thread, line.call, self.arguments(line))
        outcome, value, listed, data = answer or ("waiting", 0, [], b"")
        self.entries.append(f"{thread} {line.number} {outcome} {value} [{','.join(map(str, listed))}] {data.hex() or '-'}")
        if answer is not None:
            self.next[thread] += 1
            self.keep(line, answer)

    def keep(self, line, answer):
        outcome, value, listed, data = answer
        if line.variable:
            self.values[line.variable], self.lists[line.variable] = value, listed
        if line.call in MAKING and outcome == "ok":
            self.made[value] = line.number
        shown = f"@{self.made[value]}" if line.call in HANDLES and value in self.made else value
        self.answers[line.number] = f"{outcome} {shown} [{','.join(map(str, listed))}] {data.hex() or '-'}"

    def rest(self):
        """The census and the fronts, as a recording ends."""
        rows = [f"census {' '.join(map(str, self.model.census()))}"]
        for window in self.model.windows:
            rows.append(f"front {window.id} {window.width} {window.height}")
            rows += [b"".join(window.front[y * window.width:(y + 1) * window.width]).hex() for y in range(window.height)]
        return (*rows, "end")

    def outcome(self):
        return tuple(self.answers.get(line.number, "none") for line in self.trace.lines), self.rest()

    def is_stalled(self):
        return any(self.line(thread) for thread in range(self.trace.threads))


class TooMany(Exception):
    pass


def told(trace, entries):
    """A recording's entries with handles told by the lines that made them."""
    calls, made, rows = {line.number: line.call for line in trace.lines}, {}, []
    for words in map(str.split, entries):
        if calls.get(int(words[1])) in MAKING and words[2] == "ok":
            made.setdefault(words[3], f"@{words[1]}")
    for words in map(str.split, entries):
        if calls.get(int(words[1])) in HANDLES and words[2] == "ok":
            words[3] = made.get(words[3], words[3])
        rows.append(words)
    return rows


@dataclass
class Outcomes:
    trace: Trace
    # By an outcome the history that met it first.
    found: dict = field(default_factory=dict)
    histories: int = 0
    most: int = MOST_HISTORIES
    # The entries and the other lines of a recording, and the outcome of the history that it is of.
    recorded: tuple = None
    recorded_outcome: tuple = None

    def search(self, history):
        while True:
            ready = [thread for thread in range(self.trace.threads) if history.may_go_on(thread)]
            if not ready:
                break
            model = pickle.dumps(history.model, -1) if len(ready) > 1 else b""
            for thread in ready[:-1]:
                other = history.copied(model)
                other.step(thread)
                self.search(other)
            history.step(ready[-1])
        self.histories += 1
        if self.histories > self.most:
            raise TooMany
        self.found.setdefault(history.outcome(), history)
        if self.recorded and not history.is_stalled() and self.recorded == (told(self.trace, history.entries), history.rest()):
            self.recorded_outcome = history.outcome()

    def ordered(self):
        """The outcomes, each with the history that met it first."""
        found = list(self.found.items())
        first = found[0][0][0]
        return found[:1] + sorted(found[1:], key=lambda item: next((place for place, answer in enumerate(item[0][0]) if answer != first[place]), len(first)))

    def text(self):
        numbers, found = [line.number for line in self.trace.lines], self.ordered()
        differing = [place for place in range(len(numbers)) if len({answers[place] for (answers, _), _ in found}) > 1]
        rows = [f"outcomes {len(found)} of {self.histories} histories", ""]
        for number, ((answers, rest), history) in enumerate(found, 1):
            rows += [f"outcome {number}{' stalled' * history.is_stalled()}", f"  order {' '.join(map(str, history.order))}"]
            rows += [f"  {numbers[place]} {answers[place]}" for place in differing]
            rows += rest if len({other for (_, other), _ in found}) > 1 else []
        rows += ["", "each line"]
        for place, number in enumerate(numbers):
            rows.append(f"  {number} {' | '.join(dict.fromkeys(answers[place] for (answers, _), _ in found))}")
        if self.recorded:
            rows += ["", f"the recording has outcome {[outcome for outcome, _ in found].index(self.recorded_outcome) + 1}" if self.recorded_outcome else "the recording has none of them"]
        return "\n".join(rows) + "\n"


def outcomes_of(text, most=MOST_HISTORIES):
    trace, is_recorded, recording = f"\n{text}".partition("\nrecording\n")
    found = Outcomes(read(trace[1:]), most=most)
    if is_recorded:
        lines = recording.rstrip("\n").split("\n")
        entries = [line for line in lines if line[:1].isdigit() and " " in line]
        found.recorded = told(found.trace, entries), tuple(lines[len(entries):])
    found.search(History(found.trace))
    return found


def holds(program, trace, history):
    recording = "\n".join(["recording", *history.entries, *history.rest()]) + "\n"
    said = subprocess.run([program, "check"], input=(trace + recording).encode(), capture_output=True).stdout.decode()
    return said.startswith("holds") or print(said, end="")


def all_hold(program, trace, found):
    return all([history.is_stalled() or holds(program, trace, history) for history in found.found.values()])


def drawn(number, seed):
    """A random trace of few lines."""
    draft = RaceDraft(random.Random(f"{seed} {number} outcomes"))
    draft.threads = 2 if draft.draw.random() < 0.8 else draft.threads
    draft.lines[0] = f"egl-trace 1 {draft.threads}"
    draft.begin()
    for _ in range(draft.draw.randint(1, 6)):
        draft.step()
    return "\n".join(draft.lines) + "\n"


def is_same(outcomes, trace, found):
    """Whether another program lists the same."""
    return subprocess.run([outcomes], input=trace.encode(), capture_output=True).stdout.decode() == found.text()


def try_random(count, seed, program, outcomes=None):
    tried = wrong = drawn_so_far = 0
    while tried < int(count):
        number, drawn_so_far = drawn_so_far, drawn_so_far + 1
        trace = drawn(number, seed)
        try:
            found = outcomes_of(trace, MOST_RANDOM)
        except TooMany:
            continue
        tried += 1
        if not all_hold(program, trace, found) or outcomes and not is_same(outcomes, trace, found):
            wrong += 1
            print(f"{trace}another list: trace {number} of seed {seed}")
    print(f"{tried} traces of {drawn_so_far} that were drawn, {wrong} of them otherwise")
    return 1 if wrong else 0


def main():
    if sys.argv[1:2] == ["random"]:
        return try_random(*sys.argv[2:])
    trace = sys.stdin.read()
    try:
        found = outcomes_of(trace)
    except TooMany:
        print("too many histories")
        return 8
    print(found.text(), end="")
    if found.recorded:
        return 0 if found.recorded_outcome else 9
    return 0 if not sys.argv[1:] or all_hold(sys.argv[1], trace, found) else 1


if __name__ == "__main__":
    sys.exit(main())
