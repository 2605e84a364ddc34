#!/usr/bin/env python3
"""Whether the reader of traces in C reads what the worked examples say is a trace, and tells the defects of what is none. The words are the command that reads them."""
import glob
import os
import re
import subprocess
import sys

DATA = os.path.join(os.path.dirname(os.path.abspath(__file__)), "..", "..", "crates", "play_rows", "data")
ESCAPES = {"r": "\r", "t": "\t", "0": "\0"}
# Files that are played in other ways, and those of other commands.
OTHERS = ("explained_*", "json_*", "long_run", "pictures", "scenes", "refused", "each_form", "races", "compose")


def unescaped(line):
    end = "" if line.endswith("\\") else "\n"
    line = line if end else line[:-1]
    return re.sub(r"\\(?:x([0-9a-f]{2})|([rt0]))", lambda found: chr(int(found[1], 16)) if found[1] else ESCAPES[found[2]], line) + end


def stretched(line):
    """The lines that `repeat` and `long` stand for."""
    word, _, rest = line.partition(" ")
    if word not in ("repeat", "long"):
        return [line]
    count, _, line = rest.partition(" ")
    if word == "repeat":
        return [line] * int(count)
    line, arrow, answer = line.partition(" => ")
    line = line.rstrip(" ")
    return [line + line[-1] * (int(count) - 1) + arrow + answer]


def blocks(text):
    """The lines of each example, its headings first. One may have empty lines: what stands behind such a line begins with a line of a trace."""
    found = []
    for part in re.split(r"\n\n+", text.strip("\n")):
        lines = part.split("\n")
        first = next((line for line in lines if not line.startswith("# ")), "")
        if re.match(r"([0-9]+|window|video) ", first):
            found[-1] += ["", *lines]
        else:
            found.append(lines)
    return found


def examples(text):
    """Each example's trace, and what is to be told of it: nothing where it is one."""
    openings = {}
    for lines in blocks(text):
        while lines and lines[0].startswith("# "):
            lines.pop(0)
        if lines and lines[0].startswith("opening "):
            openings[lines[0].removeprefix("opening ")] = lines[1:lines.index("end")]
            continue
        trace, said = [], False
        for line in lines:
            word, _, rest = line.partition(" ")
            if word in ("command", "census", "recording", "turns"):
                said = said or word in ("command", "turns")
                break
            for stands in openings[rest] if word == "use" else stretched(line):
                call, _, answer = stands.partition(" => ")
                if answer.startswith("malformed "):
                    yield "".join(trace) + unescaped(call.rstrip(" ")), answer
                    said = True
                else:
                    trace.append(unescaped(call.rstrip(" ")))
        if trace and not said:
            yield "".join(trace), ""


def main(command):
    files = sorted(set(glob.glob(os.path.join(DATA, "*.txt"))) - {path for name in OTHERS for path in glob.glob(os.path.join(DATA, f"{name}.txt"))})
    tried = []
    for path in files:
        with open(path, encoding="utf-8") as file:
            tried += [(os.path.basename(path), trace.encode("latin-1"), told or "a trace") for trace, told in examples(file.read())]
    given = b"".join(b"%d\n%s" % (len(trace), trace) for _, trace, _ in tried)
    found = subprocess.run(command, input=given, capture_output=True, check=True).stdout.decode().splitlines()
    wrong = [(name, told, said, trace) for (name, trace, told), said in zip(tried, found) if said != told]
    for name, told, said, trace in wrong:
        print(f"drivers/tests/defects.py: {name}: {told} is told as {said}: {trace.splitlines()[-1:]}"[:300])
    print(f"drivers/tests/defects.py: {len(found)} traces are read, {len(wrong)} of them in another way")
    return 1 if wrong or len(found) != len(tried) or len(found) < 300 else 0


sys.exit(main(sys.argv[1:]))
