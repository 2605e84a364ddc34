"""Litmus tests of a driver: short traces that threads play freely, again and again, and each outcome is looked up among all that the specification has.

The outcomes are those of a model apart (bench/all_outcomes.py). An outcome of the driver is one of them where each line answers the same, or where its lines agree as the judge has it in the order of one of them: another error that holds, a fence that is signalled early, and what a waiver knows.
"""
import glob
import os
import re
import subprocess
import sys
from collections import Counter
from dataclasses import dataclass

from driver import NotPlayed
from judge import Difference, judge
from logs import Malformed
from oracle import Trouble
from waivers import waive

HERE = os.path.dirname(os.path.abspath(__file__))
sys.path.insert(0, os.path.join(os.path.dirname(HERE), "bench"))
from all_outcomes import HANDLES, MAKING, outcomes_of

# How long the threads of a run may take where they may stall, and where they may not, as a busy machine can be late; how long all runs of a test; and how many runs there are where each may stall.
SECONDS, PATIENT_SECONDS, LIMIT, WAITING_RUNS = 10, 120, 7_200, 50
NOT_PLAYED = ("census", "readFront", "readBuffer")


@dataclass
class Outside:
    """A driver's outcome that isn't in the set: how often, and what is nearest."""

    count: int
    said: list


def names():
    return sorted(glob.glob(os.path.join(HERE, "litmus", "*.trace")))


def is_played(line):
    return line.call not in NOT_PLAYED


def played(driver, trace, runs, seconds):
    """The head of the log, and of each run its lines."""
    try:
        ran = subprocess.run([driver.player, "--seconds", str(seconds), "--free", str(runs)], input=trace.encode(), capture_output=True, env=driver.surroundings, timeout=LIMIT)
    except (OSError, subprocess.TimeoutExpired) as fault:
        raise NotPlayed(str(fault))
    if ran.returncode:
        raise NotPlayed(f"status {ran.returncode}: {ran.stderr.decode(errors='replace').strip()}")
    head, *each = re.split(r"^# run [0-9]+\n", ran.stdout.decode(), flags=re.M)
    return head, [run.strip("\n").split("\n") for run in each]


def outcome_of(trace, rows):
    """By the number of each line of the trace the line of the log, None where it has no answer; or the word of a crash."""
    if rows[-1].startswith("crash "):
        return rows[-1].split()[1]
    left = {thread: [line.number for line in trace.of(thread) if is_played(line)] for thread in range(trace.threads)}
    found = dict.fromkeys(line.number for line in trace.lines if is_played(line))
    for row in rows:
        if row.startswith("# skipped "):
            number = int(row.split()[2])
            left[next(line.thread for line in trace.lines if line.number == number)].remove(number)
            del found[number]
        elif row[:1].isdigit():
            found[left[int(row.split()[0])].pop(0)] = row
    return found


def answers_of(trace, outcome):
    """An outcome as the model spells it: handles by the lines that made them."""
    calls, made, spelled = {line.number: line.call for line in trace.lines}, {}, []
    for number, row in outcome.items():
        words = row.partition(" => ")[2].split() if row else ["none"]
        if row and not words:
            words = ["ok"]
        if calls[number] in MAKING and words[0] == "ok":
            made[words[1]] = f"@{number}"
    for number, row in outcome.items():
        words = (row.partition(" => ")[2].split() or ["ok"]) if row else ["none"]
        if words[0] != "none":
            words += ["0", "[]", "-"][len(words) - 1:]
        if calls[number] in HANDLES and len(words) > 1:
            words[1] = made.get(words[1], words[1])
        # The number of a display is the driver's own.
        spelled.append((number, " ".join(words) if calls[number] != "eglGetDisplay" else words[0]))
    return tuple(spelled)


def wanted_of(trace, answers, numbers):
    """An outcome of the model for the lines that the driver played."""
    calls = {line.number: line.call for line in trace.lines}
    return tuple((number, answer if calls[number] != "eglGetDisplay" else answer.split()[0]) for number, answer in zip(calls, answers) if number in numbers)


def in_order(order, outcome):
    """The lines of a log in the order of a history; a wait stands where it ended, and behind all stand those that the history hasn't."""
    last = {number: place for place, number in enumerate(order)}
    return [row for number, row in sorted(outcome.items(), key=lambda item: (last.get(item[0], len(order)), item[0])) if row]


def nearest(driver, oracle, waivers, name, head, found, outcome):
    """The fewest differences that are left in the order of an outcome that leaves the same lines without an answer."""
    best = None
    for history in found.found.values():
        missing = [number for number, row in outcome.items() if row is None]
        if any(number in history.answers for number in missing):
            continue
        log = head + "\n".join(in_order(history.order, outcome)) + "\n"
        try:
            left = waive(waivers, name, judge(log, 0, oracle).differences, log)
        except (Malformed, Trouble) as fault:
            left = [Difference(0, "outcome", "log", "malformed", f"the log is {fault}", "play")]
        told = [f"{difference.spelled()[:160]} | {log.split(chr(10))[difference.line - 1].partition(' => ')[0][:120]}" for difference in left]
        if best is None or len(told) < len(best):
            best = told
        if not best:
            break
    return ["no outcome stalls there"] if best is None else best


def held_litmus(driver, oracle, waivers, path, runs):
    """What is outside of the set, how many of its outcomes were met as they are, and how many there are."""
    with open(path, encoding="utf-8") as file:
        text = file.read()
    name, found = os.path.basename(path).removesuffix(".trace"), outcomes_of(text)
    may_stall = any(history.is_stalled() for history in found.found.values())
    head, each = played(driver, text, min(runs, WAITING_RUNS), SECONDS) if may_stall else played(driver, text, runs, PATIENT_SECONDS)
    seen, kept = Counter(), {}
    for rows in each:
        outcome = outcome_of(found.trace, rows)
        key = outcome if isinstance(outcome, str) else answers_of(found.trace, outcome)
        seen[key] += 1
        kept[key] = outcome
    outside, met = [], set()
    for key, count in seen.most_common():
        if isinstance(key, str):
            left = waive(waivers, name, [Difference(0, "outcome", "answer", key, f"answer {key}", "run")], "")
            outside += [Outside(count, [f"crash {key}"])] if left else []
            continue
        numbers = kept[key].keys()
        same = {answers for answers, _ in found.found if wanted_of(found.trace, answers, numbers) == key}
        met |= same
        left = [] if same else nearest(driver, oracle, waivers, name, head, found, kept[key])
        outside += [Outside(count, left)] if left else []
    return outside, len(met), len({answers for answers, _ in found.found}), sum(seen.values())
