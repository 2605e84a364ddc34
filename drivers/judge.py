#!/usr/bin/env python3
"""Holds a driver's log against the specification: `judge.py [--delta N] [--program PATH] [explain] < LOG`.

The program plays the log's calls in their order, and what it answers is compared with what the driver answered. Where the two part, a call is left out, or a fence is served before it, and the program plays all again; so what stands behind a difference is judged too. Status 0 without differences, 9 with, 4 where the log is out of form.
"""
import os
import re
import sys

sys.dont_write_bytecode = True
sys.path.insert(0, os.path.dirname(os.path.abspath(__file__)))
from configs import CONFIG_PLACES, Configs, number_of
from differences import Difference, Judgement
from logs import NAMES, OWN, Malformed, is_number, read, variables_of
from oracle import Oracle, Trouble
from pixels import pixels_of
from shadow import BINDINGS, CREATING, NAMED, Pixels, Shadow

CONFIG_LISTS = ("eglGetConfigs", "eglChooseConfig")
CONFIG_QUERIES = ("eglGetConfigAttrib", "eglQuerySurface", "eglQueryContext")
# What is the implementation's own.
OWN_ATTRIBUTES = ("EGL_NATIVE_VISUAL_ID", "EGL_NATIVE_VISUAL_TYPE", "EGL_MAX_PBUFFER_WIDTH", "EGL_MAX_PBUFFER_HEIGHT", "EGL_MAX_PBUFFER_PIXELS", "EGL_MAX_SWAP_INTERVAL", "EGL_MIN_SWAP_INTERVAL")
# By a call the kind and the place of a name that it is given.
NAME_PLACES = {"glBindTexture": 1, "glBindBuffer": 1, "glBindRenderbufferOES": 1, "glBindFramebufferOES": 1, "glIsTexture": 0, "glIsBuffer": 0, "glIsRenderbufferOES": 0, "glIsFramebufferOES": 0, "glDeleteTextures": 0, "glDeleteBuffers": 0, "glDeleteRenderbuffersOES": 0, "glDeleteFramebuffersOES": 0, "glFramebufferTexture2DOES": 3, "glFramebufferRenderbufferOES": 3, "eglCreateImage": 3}
# By a kind of names the calls that rest on its binding alone; those of textures and framebuffers change what is drawn, so all calls of OpenGL ES do.
RESTING = {"renderbuffer": ("glRenderbufferStorageOES", "glGetRenderbufferParameterivOES", "glEGLImageTargetRenderbufferStorageOES", "glGetIntegerv"), "buffer": ("glBufferData", "glBufferSubData", "glGetBufferParameteriv", "glGetIntegerv")}
# The waits of a fence that has not been signalled, and of one that has.
UNSIGNALLED, SIGNALLED = ("EGL_TIMEOUT_EXPIRED", "EGL_UNSIGNALED"), ("EGL_CONDITION_SATISFIED", "EGL_SIGNALED")


# Calls of EGL that ask for what is current, or work on it.
OF_CURRENT = ("eglGetCurrentContext", "eglGetCurrentSurface", "eglGetCurrentDisplay", "eglSwapBuffers", "eglCreateSync", "eglWaitSync", "eglWaitClient")


class Again(Exception):
    """A call is left out or put in: the program has to play all again."""


def is_same(ours, theirs):
    return number_of(ours) == number_of(theirs)


class Judge:
    def __init__(self, log, delta=0, oracle=None):
        self.log, self.delta, self.oracle = log, delta, oracle or Oracle()
        # By a line that isn't played: why, and behind which line.
        self.unplayed = {}
        # By a line the fences that are served before it: a thread, a display and a sync.
        self.served = {}
        self.configs = Configs(log)
        for line in log.lines:
            if line.answer is not None and line.number not in self.unplayed and self.has_other_config(line):
                self.unplayed[line.number] = "config", line.number
                self.lose(line, line.number)

    def judged(self):
        while True:
            trace = self.trace()
            try:
                answers = self.oracle.answers(trace)
            except Trouble as trouble:
                raise self.malformed(trouble)
            try:
                walk = Pass(self, trace, answers)
                walk.judged()
                return walk
            except Again:
                continue

    def malformed(self, trouble):
        """The program's word for a line, with the line's number in the log."""
        said = re.match(r"malformed ([0-9]+) ([A-Za-z]+)", trouble.said)
        return Malformed(self.lines_of[int(said[1])], said[2]) if said else trouble

    def has_other_config(self, line):
        """Whether a config stands there that is none of ours."""
        place, words = CONFIG_PLACES.get(line.name), self.configs.words(line)
        if line.name == "eglChooseConfig":
            return len(words) == 2 and "None" in words[1].strip("[]").split(",")
        return place is not None and words[place:place + 1] == ["None"]

    def trace(self):
        """The trace of what is played, whose threads take turns as the log's do."""
        text, self.lines_of, self.played = [f"egl-trace 1 {self.log.threads}"], {1: 1}, {}
        for number, head in self.log.head.items():
            text.append(head)
            self.lines_of[len(text)] = number
        last = None

        def add(thread, words, number):
            nonlocal last
            if last not in (None, thread):
                text.extend([f"{last} post {len(text)}", f"{thread} await {len(text)}"])
            last = thread
            text.append(f"{thread} {words}")
            self.lines_of[len(text)] = number

        for line in self.log.lines:
            if line.answer is None or line.name in OWN or line.number in self.unplayed:
                continue
            for thread, display, sync in self.served.get(line.number, []):
                add(thread, f"eglWaitSync {display} {sync} 0", line.number)
            call = "readFront" if line.name == "front" else line.name
            add(line.thread, " ".join([*([f"${line.variable}", "="] if line.variable else []), call, *self.configs.words(line)]), line.number)
            self.played[line.number] = len(text)
        return "\n".join(text) + "\n"

    def lose(self, line, cause):
        """What is behind a line whose answer there isn't: each line that uses its variable, and so on."""
        lost = {line.variable} - {None}
        for other in self.log.lines:
            if other.number > line.number and lost.intersection(variable for variable, _ in variables_of(other.words)) and other.number not in self.unplayed:
                self.leave_out(other, "after", cause)
                lost.add(other.variable)
        lost.discard(None)

    def leave_out(self, line, why, cause):
        """Leaves out a line; and with an eglMakeCurrent the thread's calls that rest on it, up to the next one."""
        self.unplayed[line.number] = why, cause
        if line.name == "eglMakeCurrent" and why == "after":
            self.leave_out_drawing(line, cause)

    def leave_out_named(self, line):
        """With a call that gives another name: what rests on its binding, up to the next one of the kind; with a delete all that names one of the kind."""
        kind, has_drawn = kind_of(line.name), False
        for other in self.log.lines:
            if other.number <= line.number or other.number in self.unplayed or other.name == "glGetError":
                continue
            if other.thread == line.thread and other.name == line.name and line.name.startswith("glBind") and other.words[0] == line.words[0] and not has_drawn:
                return
            rests = other.thread == line.thread and (kind not in RESTING or other.name in RESTING[kind]) and other.name.startswith("gl") and not other.name.startswith(("glDelete", "glGen", "glIs"))
            has_drawn |= rests and kind not in RESTING and other.name.startswith(("glClear", "glDraw", "glCopy", "glTexImage", "glTexSub", "glFramebuffer"))
            if rests or line.name.startswith("glDelete") and other.name in NAME_PLACES and kind_of(other.name) == kind:
                self.unplayed[other.number] = "after", line.number
                self.lose(other, line.number)

    def leave_out_drawing(self, line, cause):
        for other in self.log.lines:
            if other.number > line.number and other.thread == line.thread:
                if other.name in ("eglMakeCurrent", "eglReleaseThread"):
                    return
                if (other.name.startswith("gl") or other.name in OF_CURRENT) and other.number not in self.unplayed:
                    self.unplayed[other.number] = "after", cause
                    self.lose(other, cause)


class Pass:
    """One walk along the log beside the program's answers."""

    def __init__(self, judge, trace, answers):
        self.judge, self.trace, self.answers = judge, trace, answers
        self.shadow, self.found, self.listed, self.values = Shadow(), Judgement(), {}, {}
        self.conditions = None

    def judged(self):
        for line in self.judge.log.lines:
            if line.answer is None:
                if line.name not in OWN:
                    self.found.cut = " ".join(["cut", str(line.number), line.name, *([self.judge.log.crash] if self.judge.log.crash else [])])
                continue
            self.found.lines += 1
            if line.number in self.judge.unplayed:
                self.skip(line, *self.judge.unplayed[line.number])
            elif line.name in OWN:
                self.found.agreed += 1
            else:
                self.compare(line)
        return self.found

    def skip(self, line, why, cause):
        """A line that isn't played has the driver's error."""
        error = None if line.answer.outcome == "ok" else line.answer.outcome
        if why == "refused":
            self.differ(line, "outcome", "ok", line.answer.outcome)
        elif why == "after":
            self.found.after.append((line.number, cause))
        else:
            self.found.unjudged.append((line.number, why))
        self.shadow.note(line.thread, line.name, error)

    def differ(self, line, kind, expected, found, text=None):
        self.found.differences.append(Difference(line.number, kind, expected, found, text or f"{expected} {found}", line.name))

    def argument(self, word):
        """The number that a word stands for, as the specification has it."""
        if word.startswith("["):
            return [self.argument(item) for item in word[1:-1].split(",")] if word != "[]" else []
        variable = re.fullmatch(r"\$([a-z0-9_]+)(?:\.([0-9]+))?", word)
        if not variable:
            return number_of(word)
        if variable[2] is None:
            return number_of(self.values.get(variable[1], "0"))
        items = self.listed.get(variable[1], [])
        return number_of(items[int(variable[2])]) if int(variable[2]) < len(items) else 0

    def compare(self, line):
        self.refuse_unjudged(line)
        outcome, value, listed, read = self.answers[self.judge.played[line.number]]
        if line.variable:
            self.values[line.variable], self.listed[line.variable] = value, listed
        args = [self.argument(word) for word in self.judge.configs.words(line)]
        if outcome == "ok" and line.answer.outcome == "ok":
            self.serve(line, args, value)
            self.both_done(line, args, value, listed, read)
        elif outcome == "ok":
            self.judge.leave_out(line, "refused", line.number)
            self.judge.lose(line, line.number)
            raise Again
        else:
            self.refused(line, outcome)

    def refuse_unjudged(self, line):
        """Leaves out a line with a name that nothing of ours stands for."""
        if self.has_other_name(line):
            self.judge.leave_out(line, "name", line.number)
            self.judge.lose(line, line.number)
            if line.name.startswith(("glBind", "glDelete")):
                self.judge.leave_out_named(line)
            raise Again

    def has_other_name(self, line):
        """Whether a name stands there as a number that the driver gave to another object."""
        place = NAME_PLACES.get(line.name)
        if place is None or place >= len(line.words):
            return False
        if line.name == "eglCreateImage":
            kind = {"EGL_GL_TEXTURE_2D": "texture", "EGL_GL_RENDERBUFFER": "renderbuffer"}.get(line.words[2])
            context = self.shadow.contexts.get(self.argument(line.words[1]))
        else:
            kind, context = kind_of(line.name), self.shadow.context(line.thread)
        given = [number_of(word) for word in line.words[place].strip("[]").split(",") if word and not word.startswith("$")]
        return context is not None and any(self.is_other(context.group.theirs, kind, name) for name in given)

    def is_other(self, theirs, kind, name):
        """Whether a number is a name of ours that is another of the driver's, or the other way round."""
        return theirs.get((kind, name), name) != name or any(of == kind and ours != name and given == name for (of, ours), given in theirs.items())

    def refused(self, line, outcome):
        """We refuse the call; the driver's error is kept where it is one of those that hold."""
        theirs = line.answer.outcome
        if theirs == outcome:
            self.found.agreed += 1
            self.shadow.note(line.thread, line.name, outcome)
            return
        errors = list(dict.fromkeys(error for error, _ in self.conditions_of(self.judge.played[line.number])))
        if theirs in errors:
            self.found.agreed += 1
            self.shadow.note(line.thread, line.name, theirs)
            return
        self.differ(line, "outcome", ",".join(errors or [outcome]), theirs)
        self.shadow.note(line.thread, line.name, outcome)
        if theirs == "ok":
            self.lost(line)

    def conditions_of(self, at):
        """The conditions that refuse what is played at a line, each with its error."""
        if self.conditions is None:
            self.conditions = self.judge.oracle.refusals(self.trace)
        return self.conditions.get(at, [])

    def lost(self, line):
        """The driver did what we refused: what comes of that isn't judged."""
        before = len(self.judge.unplayed)
        self.judge.lose(line, line.number)
        if line.name == "eglMakeCurrent":
            self.judge.leave_out_drawing(line, line.number)
        if len(self.judge.unplayed) > before:
            raise Again

    def serve(self, line, args, value):
        """A fence that the driver has signalled already."""
        if value not in UNSIGNALLED or line.answer.value not in SIGNALLED or not (line.name == "eglClientWaitSync" or line.name == "eglGetSyncAttrib"):
            return
        current = [thread for thread in [line.thread, *self.shadow.current] if self.shadow.context(thread)]
        if current and line.number not in self.judge.served:
            self.judge.served[line.number] = [(current[0], *line.words[:2])]
            raise Again

    def both_done(self, line, args, value, listed, read):
        name, shadow, before = line.name, self.shadow, len(self.found.differences)
        if name == "eglClientWaitSync" and value == "EGL_TIMEOUT_EXPIRED" and line.words[3].startswith(("-", "EGL_FOREVER")):
            value = "waiting"
        pixels = self.read_pixels(line, args, read)
        # The state is that behind the call, but names that it deletes and errors that it asks for are those before.
        error = self.answered_error(line, value)
        shadow.note(line.thread, name, None)
        shadow.follow(line.thread, name, args, number_of(value), [number_of(item) for item in listed])
        is_own = name == "eglGetConfigAttrib" and args[2] in OWN_ATTRIBUTES
        if is_own:
            self.found.own += 1
        elif pixels:
            self.compare_pixels(line, args, read, pixels)
        elif name in CREATING:
            self.compare_created(line, args, value)
        elif name.startswith("glGen"):
            self.compare_names(line, listed)
        elif name in CONFIG_LISTS:
            self.compare_configs(line, listed)
        else:
            self.compare_value(line, args, error or value, listed)
        self.found.agreed += not is_own and len(self.found.differences) == before

    def answered_error(self, line, value):
        """What a call that asks for an error answers: the errors are kept here, since another than the first may have agreed."""
        context = self.shadow.context(line.thread)
        if line.name == "eglGetError":
            error, self.shadow.errors[line.thread] = self.shadow.error(line.thread), "EGL_SUCCESS"
            return error
        if line.name == "glGetError" and context:
            error, context.error = context.error or "GL_NO_ERROR", None
            return error
        return None

    def read_pixels(self, line, args, read):
        """How the bytes of a call are pixels: width, height, the bits of a component, whether two bytes have a pixel, and where a row begins; nothing where it answers none."""
        if line.name == "front":
            window = args[0]
            head = next((words for words in (text.split() for text in self.judge.log.head.values()) if words[:2] == ["window", str(window)]), None)
            return (int(head[2]), int(head[3]), self.shown(window).bits, False, 1) if head else None
        if line.name != "glReadPixels" or not self.shadow.context(line.thread):
            return None
        return args[2], args[3], self.shadow.read_from(line.thread).bits, args[4] == "GL_RGB", self.shadow.context(line.thread).pack

    def shown(self, window):
        """The pixels that a window shows."""
        return self.shadow.fronts.get(window) or Pixels(self.shadow.windows[window].bits if window in self.shadow.windows else (8, 8, 8, 8))

    def may_be_any(self, line, args, told):
        """Whether all pixels that differ may never have been written, or lie outside."""
        source, left, bottom = (self.shown(args[0]), 0, 0) if line.name == "front" else (self.shadow.read_from(line.thread), args[0], args[1])
        return source.is_unwritten or all(not (0 <= left + x < source.width and 0 <= bottom + y < source.height) for x, y in zip(told.columns, told.rows))

    def compare_pixels(self, line, args, ours, pixels):
        theirs = line.answer.bytes
        if len(ours) != len(theirs):
            self.differ(line, "length", str(len(ours)), str(len(theirs)))
            return
        told = pixels_of(ours, theirs, *pixels).told(self.judge.delta) if ours else None
        if told:
            self.differ(line, "pixels", told.first[2].hex(), told.first[3].hex(), told.text())
            self.found.differences[-1].is_zero = told.is_zero and self.may_be_any(line, args, told)

    def compare_created(self, line, args, value):
        ours, theirs, kind = int(value), line.answer.value, CREATING[line.name]
        if theirs != "0" and not self.shadow.is_taken(kind, args[0], theirs):
            self.shadow.theirs[ours] = theirs
            return
        self.differ(line, "value", "-", theirs)
        self.lost(line)

    def compare_names(self, line, listed):
        context, kind, theirs = self.shadow.context(line.thread), kind_of(line.name), line.answer.list
        if context is None and not theirs:
            return
        taken = [name for (of, _), name in context.group.theirs.items() if of == kind] if context else []
        numbers = [number_of(name) for name in theirs]
        if len(theirs) != len(listed) or len(set(numbers)) != len(numbers) or 0 in numbers or set(numbers) & set(taken):
            self.differ(line, "list", f"[{','.join(listed)}]", f"[{','.join(theirs)}]")
            self.lost(line)
            return
        context.group.theirs.update({(kind, int(name)): number for name, number in zip(listed, numbers)})

    def compare_configs(self, line, listed):
        theirs, by_ours = line.answer.list, {ours: theirs for theirs, ours in self.judge.configs.ours.items()}
        wanted = [str(by_ours[int(config)]) for config in listed if int(config) in by_ours]
        found = [config for config in theirs if is_number(config) and int(config) in self.judge.configs.ours]
        if wanted != found:
            self.differ(line, "list", f"[{','.join(wanted)}]", f"[{','.join(found)}]")

    def compare_value(self, line, args, value, listed):
        wanted, theirs = self.mapped(line, args, value), line.answer.value
        if not is_same(wanted, theirs):
            self.differ(line, "value", wanted, theirs)
        elif list(map(number_of, listed)) != list(map(number_of, line.answer.list)):
            self.differ(line, "list", f"[{','.join(listed)}]", f"[{','.join(line.answer.list)}]")

    def mapped(self, line, args, value):
        """A value of ours as the driver has it."""
        name, shadow, context = line.name, self.shadow, self.shadow.context(line.thread)
        if value == "0":
            return value
        if name in ("eglGetDisplay", "eglGetCurrentDisplay"):
            is_new = int(value) not in shadow.displays and line.answer.value not in ["0", *shadow.displays.values()]
            return shadow.displays.setdefault(int(value), line.answer.value) if is_new else shadow.displays.get(int(value), "-")
        if name in ("eglGetCurrentContext", "eglGetCurrentSurface"):
            return shadow.theirs.get(int(value), "-")
        if name in CONFIG_QUERIES and args[2] == "EGL_CONFIG_ID":
            return next((str(theirs) for theirs, ours in self.judge.configs.ours.items() if ours == int(value)), "-")
        kinds = [BINDINGS.get(args[0])] if name == "glGetIntegerv" else []
        if name == "glGetFramebufferAttachmentParameterivOES" and args[2] == "GL_FRAMEBUFFER_ATTACHMENT_OBJECT_NAME_OES":
            kinds = shadow.attached_kinds(line.thread, args[1], number_of(value))
        return next((str(context.group.theirs[kind, number_of(value)]) for kind in kinds if (kind, number_of(value)) in context.group.theirs), value)


def kind_of(name):
    """The kind of the names that a call is about."""
    return next((NAMED[name.removeprefix(word)] for word in ("glGen", "glDelete", "glBind", "glIs") if name.startswith(word) and name.removeprefix(word) in NAMED), {"glFramebufferTexture2DOES": "texture", "glFramebufferRenderbufferOES": "renderbuffer"}.get(name))


def walked(text, delta=0, oracle=None):
    """The last walk along a log."""
    try:
        log = read(text)
    except Malformed as malformed:
        # A line before it may be out of a trace's form, which the program says.
        front = text.split("\n")[:malformed.line - 1]
        if front:
            walked("\n".join(front) + "\n", delta, oracle)
        raise
    return Judge(log, delta, oracle).judged()


def judge(text, delta=0, oracle=None):
    """The judgement of a log, or Malformed with its first defective line."""
    return walked(text, delta, oracle).found


def explained(walk):
    """For people: each call that differs, what came, and what would have agreed."""
    lines = {line.number: line for line in walk.judge.log.lines}
    for difference in walk.found.differences:
        line = lines[difference.line]
        at = walk.judge.played.get(line.number)
        conditions = walk.conditions_of(at) if at else []
        yield f"{line.number:6} | {line.text.partition(' => ')[0][:140]}"
        yield f"       |   came: {difference.found}" 
        if difference.kind == "pixels":
            count, of, largest, left, bottom, right, top, x, y, *_ = difference.text.split()
            yield f"       |   {count} of {of} pixels differ, by {largest} steps at most, in columns {left} to {right} and rows {bottom} to {top}; the first at {x}, {y}"
        for error, why in conditions:
            yield f"       |   would agree: {error}: {why}"
        if not conditions:
            yield f"       |   would agree: {difference.expected}"


def main():
    words, delta, path = sys.argv[1:], 0, None
    if "--delta" in words:
        delta = int(words.pop(words.index("--delta") + 1))
        words.remove("--delta")
    if "--program" in words:
        path = words.pop(words.index("--program") + 1)
        words.remove("--program")
    if words not in ([], ["explain"]) or not 0 <= delta <= 255:
        raise SystemExit("judge.py [--delta N] [--program PATH] [explain] < LOG")
    text = sys.stdin.buffer.read().decode("utf-8", "replace")
    oracle = Oracle(path)
    try:
        walk = walked(text, delta, oracle)
    except Malformed as malformed:
        print(malformed)
        return 4
    except Trouble as trouble:
        print(trouble.said.split("\n")[0])
        return trouble.status
    print(walk.found.text(), end="")
    if words:
        print("\n".join(explained(walk)))
    return walk.found.status()


if __name__ == "__main__":
    sys.exit(main())
