"""The traces by which a driver is tried: the worked examples that a driver can play, those that the program generates, and random ones."""
import glob
import importlib.machinery
import importlib.util
import os
import re
import subprocess
import sys

from judge import kind_of

HERE = os.path.dirname(os.path.dirname(os.path.abspath(__file__)))
DATA = os.path.join(HERE, "crates", "play_rows", "data")
# It stands alone in a line directly above the heading of an example that no driver can play.
MARK = "# not portable"
# How many lines each generated trace has between its first and its last ones, and of how many threads; by its seed.
GENERATED = {seed: (120, 1 + seed % 4) for seed in range(1, 11)}
# By a call the places of its handles, and of the display.
HANDLES = {"eglInitialize": [0], "eglTerminate": [0], "eglCreateWindowSurface": [0], "eglCreatePbufferSurface": [0], "eglCreateContext": [0, 2], "eglDestroySurface": [0, 1], "eglDestroyContext": [0, 1], "eglMakeCurrent": [0, 1, 2, 3], "eglSurfaceAttrib": [0, 1], "eglQuerySurface": [0, 1], "eglSwapBuffers": [0, 1], "eglCreateImage": [0, 1], "eglDestroyImage": [0, 1], "glEGLImageTargetTexture2DOES": [1], "glEGLImageTargetRenderbufferStorageOES": [1]}
CREATING = ("eglCreateWindowSurface", "eglCreatePbufferSurface", "eglCreateContext", "eglCreateImage")
ESCAPES = {"r": "\r", "t": "\t", "0": "\0"}


def unescaped(line):
    return re.sub(r"\\(?:x([0-9a-f]{2})|([rt0]))", lambda found: chr(int(found[1], 16)) if found[1] else ESCAPES[found[2]], line)


def trace_of(lines, openings):
    """The trace of an example's lines; nothing where it isn't one that a driver plays to its end."""
    trace = []
    for line in lines:
        word, _, rest = line.partition(" ")
        if word == "use":
            trace += openings[rest]
        elif word == "command" or " => malformed " in line:
            return None
        elif word in ("census", "recording"):
            break
        elif word in ("repeat", "long"):
            count, _, repeated = rest.partition(" ")
            trace += [repeated] * int(count) if word == "repeat" else [repeated + repeated[-1] * (int(count) - 1)]
        else:
            trace.append(line)
    if any(line.startswith("stalled ") for line in lines):
        return None
    calls = [line.partition(" => ")[0].rstrip(" ") for line in trace]
    # A backslash at the end says that no line feed follows.
    text = "".join(unescaped(line[:-1]) if line.endswith("\\") else unescaped(line) + "\n" for line in calls)
    return text if text.startswith("egl-trace 1 ") else None


def examples_of(text):
    """The heading and the trace of each example of a file that no mark says a driver can't play."""
    openings = {}
    for block in re.split(r"\n\n+", text):
        lines = block.strip("\n").split("\n")
        heads = []
        while lines and lines[0].startswith("# "):
            heads.append(lines.pop(0))
        if lines and lines[0].startswith("opening "):
            openings[lines[0].removeprefix("opening ")] = lines[1:lines.index("end")]
        elif lines and heads and MARK not in heads:
            trace = trace_of(lines, openings)
            if trace:
                yield heads[-1].removeprefix("# "), trace


def examples():
    for path in sorted(glob.glob(os.path.join(DATA, "*.txt"))):
        name = os.path.basename(path).removesuffix(".txt")
        if name.startswith(("explained_", "json_")) or name in ("long_run", "pictures", "scenes", "refused", "each_form"):
            continue
        with open(path, encoding="utf-8") as file:
            for number, (heading, trace) in enumerate(examples_of(file.read()), 1):
                yield f"{name} {number}: {heading}", trace
    for folder in "examples", "drivers/found":
        for path in sorted(glob.glob(os.path.join(HERE, folder, "*.trace"))):
            with open(path, encoding="utf-8") as file:
                yield f"{folder}/{os.path.basename(path)}", file.read()


def generated(program, seed):
    """A generated trace whose windows are cleared at first: pixels that were never written are a driver's own."""
    lines, threads = GENERATED[seed]
    text = subprocess.run([program, "gen", str(lines), str(threads), str(seed)], capture_output=True, check=True).stdout.decode()
    return re.sub(r"^(\d+) eglMakeCurrent .*$", r"\g<0>\n\1 glClear GL_COLOR_BUFFER_BIT", text, flags=re.M)


def random_runs():
    """The script that draws random traces."""
    sys.path.insert(0, os.path.join(HERE, "bench"))
    loader = importlib.machinery.SourceFileLoader("random_runs", os.path.join(HERE, "bench", "random_runs"))
    module = importlib.util.module_from_spec(importlib.util.spec_from_loader("random_runs", loader))
    loader.exec_module(module)
    return module


def random_trace(number, seed=1):
    return portable(*RANDOM.run(f"{seed} {number}"))


def portable(trace, recording):
    """A random trace as a driver can play it: handles by variables, and without what a driver hasn't, or has otherwise."""
    handles, lines, dropped = {"1": "$d"}, [], set()
    answers = {words[1]: words[2:] for words in (entry.split() for entry in recording.split("\n")[1:]) if len(words) == 6}
    values, made = {}, {}
    for number, line in enumerate(trace.split("\n"), 1):
        words = line.split()
        if not words or not words[0].isdigit():
            lines += [line] if not line.startswith("video") else []
            continue
        assigned, (name, *args) = (words[1], words[3:]) if words[1].startswith("$") else (None, words[1:])
        outcome, value, listed, _ = answers[str(number)]
        made[assigned] = name
        values |= {assigned: value, **{f"{assigned}.{k}": item for k, item in enumerate(listed.strip("[]").split(",")) if item}} if assigned else {}
        places = HANDLES.get(name, [])
        # A handle is what a variable stands for, and never a name of a texture that is the same number.
        args = [handles.get(values.get(arg, "0" if "." in arg else arg), values.get(arg, "0" if "." in arg else arg)) if k in places else arg for k, arg in enumerate(args)]
        args = [arg if k in places else re.sub(r"\$\w+(\.\d+)?", lambda found: named(name, found[0], made, values), arg) for k, arg in enumerate(args)]
        if is_dropped(name, args, places, dropped):
            dropped.add(assigned)
            continue
        if name in CREATING and outcome == "ok":
            assigned = assigned or f"$h{value}"
            handles[value] = assigned
        lines.append(" ".join(["0", *([assigned, "="] if assigned else []), name, *args]))
    at = next(k for k, line in enumerate(lines) if line[:2] == "0 ")
    return "\n".join([*lines[:at], "0 $d = eglGetDisplay 0", *lines[at:]])


def named(name, word, made, values):
    """A variable of names, or its number where the names are of another kind."""
    return word if made[word.partition(".")[0]].startswith("glGen") and kind_of(made[word.partition(".")[0]]) == kind_of(name) else values.get(word, "0")


def is_dropped(name, args, places, dropped):
    """Whether a driver can't play a line: the second display, numbers that no GLint has, sides and counts that it may allow, and what isn't there."""
    items = [item for arg in args for item in arg.strip("[]").split(",")]
    numbers = [int(item) for item in items if item.isdigit()]
    sides = {"glTexImage2D": args[3:5], "glCopyTexImage2D": args[5:7]}.get(name, [])
    is_side = any(side.isdigit() and (int(side) & (int(side) - 1) or int(side) > 1_024 >> min(max(int(args[1]), 0), 10)) for side in sides)
    # Greater storages, and levels to draw to, which an extension allows.
    is_side = is_side or name == "glRenderbufferStorageOES" and any(side.isdigit() and int(side) > 2_048 for side in args[2:4]) or name == "glFramebufferTexture2DOES" and args[4] != "0"
    is_many = name.startswith("glGen") and numbers[:1] == [257]
    is_other_display = places[:1] == [0] and args[0] != "$d"
    return name in ("census", "readFront", "readBuffer") or is_side or is_many or is_other_display or any(number > 2_147_483_647 for number in numbers) or any(item.partition(".")[0] in dropped for item in items if item.startswith("$"))


def all_traces(program, count):
    """By its name what makes each trace, the worked examples first."""
    for name, trace in examples():
        yield name, lambda trace=trace: trace
    for seed, (lines, threads) in GENERATED.items():
        yield f"gen {lines} {threads} {seed}", lambda seed=seed: generated(program, seed)
    for number in range(count):
        yield f"random {number}", lambda number=number: random_trace(number)


RANDOM = random_runs()
