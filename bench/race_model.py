"""A small model of `races`: what each call of a recording touches, which entries are ordered, and so which race.

It is written from the table in docs/MODEL.md of what a call touches, and from what leads to what there, and shares nothing with the program. Which calls are played, in which order and with which answers, it takes from the recording; what they do to names, bindings and pixels it follows by itself.
"""
from dataclasses import dataclass, field

SATISFIED = "EGL_CONDITION_SATISFIED"
COLOR = "GL_COLOR_ATTACHMENT0_OES"
WITHOUT_PIXELS = ["GL_DEPTH_COMPONENT16_OES", "GL_STENCIL_INDEX8_OES"]


@dataclass(eq=False)
class Storage:
    """Pixels."""


@dataclass(eq=False)
class Front:
    """What a window shows."""


@dataclass(eq=False)
class Buffer:
    """Bytes."""


@dataclass(eq=False)
class Surface:
    storage: Storage = field(default_factory=Storage)
    front: Front = None


@dataclass(eq=False)
class Pictured:
    """A texture, or a renderbuffer, which has level 0 alone: by a level its storage."""

    levels: dict = field(default_factory=dict)


class Texture(Pictured):
    pass


class Renderbuffer(Pictured):
    pass


@dataclass(eq=False)
class Framebuffer:
    """By a point the texture or the renderbuffer that is attached."""

    attached: dict = field(default_factory=dict)


# By the word of a target: the kind of objects that are bound to it.
TARGETS = {"GL_TEXTURE_2D": Texture, "GL_ARRAY_BUFFER": Buffer, "GL_ELEMENT_ARRAY_BUFFER": Buffer, "GL_RENDERBUFFER_OES": Renderbuffer, "GL_FRAMEBUFFER_OES": Framebuffer}
DELETED = {"glDeleteTextures": Texture, "glDeleteBuffers": Buffer, "glDeleteRenderbuffersOES": Renderbuffer, "glDeleteFramebuffersOES": Framebuffer}


@dataclass(eq=False)
class Context:
    # By a kind and a name the object, of all contexts that share.
    group: dict
    # By the word of a target the object that is bound there.
    bound: dict = field(default_factory=dict)
    own: Texture = field(default_factory=Texture)
    is_textured: bool = False

    def at(self, target):
        return self.bound.get(target) or (self.own if target == "GL_TEXTURE_2D" else None)


@dataclass
class Line:
    thread: int
    variable: str
    call: str
    words: list


@dataclass
class Entry:
    thread: int
    number: int
    outcome: str
    value: str
    listed: list

    def is_done(self):
        return self.outcome == "ok"


def lines_of(trace):
    """By its number each body line; and the windows."""
    found, windows = {}, {}
    for number, text in enumerate(trace.split("\n"), 1):
        words = text.split()
        if number == 1 or not words or text.startswith("#") or words[0] == "video":
            continue
        if words[0] == "window":
            windows[words[1]] = Front()
        elif words[1].startswith("$"):
            found[number] = Line(int(words[0]), words[1][1:], words[3], words[4:])
        else:
            found[number] = Line(int(words[0]), None, words[1], words[2:])
    return found, windows


def entries_of(recording):
    """The entries, and the lines behind `end`."""
    rows = recording.rstrip("\n").split("\n")
    place = next(k for k, row in enumerate(rows) if row.startswith("census"))
    entries = []
    for row in rows[1:place]:
        thread, number, outcome, value, listed, _ = row.split(" ")
        entries.append(Entry(int(thread), int(number), outcome, value, listed[1:-1].split(",") if listed != "[]" else []))
    return entries, rows[rows.index("end") + 1:]


def variables_in(line):
    """The variables that a line uses."""
    words = [item for word in line.words for item in word.strip("[]").split(",")]
    return {word[1:].split(".")[0] for word in words if word.startswith("$")}


class Objects:
    """What the calls of a recording have made of names, bindings and pixels, call by call."""

    def __init__(self, windows):
        self.windows = windows
        # By its number what a handle means; by a thread its context and the surfaces that it draws to and reads from.
        self.handles, self.current = {}, {}

    def context(self, thread):
        return self.current.get(thread, (None, None, None))[0]

    def targets(self, thread):
        """The storages that are drawn to and read from, and what the calls that do so read on the way."""
        context, draw, read = self.current[thread]
        framebuffer = context.bound.get("GL_FRAMEBUFFER_OES")
        if not framebuffer:
            return draw and draw.storage, read and read.storage, []
        thing = framebuffer.attached.get(COLOR)
        storage = thing.levels.get(0) if thing else None
        return storage, storage, [framebuffer, thing]

    def touches(self, thread, call, words):
        """What a call that is done reads, and what it writes; None stands for nothing."""
        context = self.context(thread)
        if call == "eglSwapBuffers":
            surface = self.current[thread][1]
            return [], [surface.storage, surface.front] if surface.front else []
        if call == "readFront":
            return [self.windows.get(words[0])], []
        if not context:
            return [], []
        texture, at = context.at("GL_TEXTURE_2D"), context.at(words[0]) if words else None
        draw, read, way = self.targets(thread)
        if call == "glClear":
            return (way, [draw]) if "GL_COLOR_BUFFER_BIT" in words[0].split("|") else ([], [])
        if call in ("glDrawTexiOES", "glDrawTexxOES"):
            return way + ([texture, *texture.levels.values()] if context.is_textured else []), [draw]
        if call == "glReadPixels":
            return way + [read], []
        if call in ("glTexImage2D", "glEGLImageTargetTexture2DOES", "glTexParameterx", "glTexParameteriv"):
            return [], [texture]
        if call == "glCopyTexImage2D":
            return way + [read], [texture]
        if call == "glTexSubImage2D":
            return [texture], [texture.levels.get(int(words[1]))]
        if call == "glCopyTexSubImage2D":
            return way + [texture, read], [texture.levels.get(int(words[1]))]
        if call in ("glBufferData", "glBufferSubData", "glRenderbufferStorageOES", "glEGLImageTargetRenderbufferStorageOES", "glFramebufferTexture2DOES", "glFramebufferRenderbufferOES"):
            return [], [at]
        if call in ("readBuffer", "glGetBufferParameteriv"):
            return [at], []
        if call in DELETED:
            return [], [context.group.get((DELETED[call], name)) for name in words[0][1:-1].split(",")]
        return [], []

    def make(self, call, words, value):
        """A handle for a new thing."""
        if call == "eglCreateContext":
            shared = self.handles.get(words[2])
            self.handles[value] = Context(shared.group if shared else {})
        elif call == "eglCreatePbufferSurface":
            self.handles[value] = Surface()
        elif call == "eglCreateWindowSurface":
            self.handles[value] = Surface(front=self.windows[words[2]])
        elif call == "eglCreateImage":
            thing = self.handles[words[1]].group[Texture if words[2] == "EGL_GL_TEXTURE_2D" else Renderbuffer, words[3]]
            level = words[4][1:-1].split(",")[1] if "EGL_GL_TEXTURE_LEVEL" in words[4] else 0
            self.handles[value] = thing.levels[int(level)]

    def play(self, thread, call, words, value):
        """Does what a call that is done does."""
        context = self.context(thread)
        if call.startswith("eglCreate"):
            self.make(call, words, value)
        elif call == "eglMakeCurrent":
            self.current[thread] = tuple(self.handles.get(word) for word in (words[3], words[1], words[2]))
        elif call == "eglReleaseThread":
            self.current.pop(thread, None)
        elif context:
            self.play_on(context, call, words)

    def play_on(self, context, call, words):
        if call.startswith("glBind"):
            self.bind(context, words[0], words[1])
        elif call in DELETED:
            for name in words[0][1:-1].split(","):
                self.delete(context, context.group.pop((DELETED[call], name), None))
        elif call in ("glEnable", "glDisable") and words[0] == "GL_TEXTURE_2D":
            context.is_textured = call == "glEnable"
        elif call in ("glTexImage2D", "glCopyTexImage2D"):
            sides = words[3:5] if call == "glTexImage2D" else words[5:7]
            context.at("GL_TEXTURE_2D").levels[int(words[1])] = None if "0" in sides else Storage()
        elif call == "glEGLImageTargetTexture2DOES":
            context.at("GL_TEXTURE_2D").levels = {0: self.handles[words[1]]}
        elif call == "glRenderbufferStorageOES":
            context.at(words[0]).levels = {0: None if words[1] in WITHOUT_PIXELS else Storage()}
        elif call == "glEGLImageTargetRenderbufferStorageOES":
            context.at(words[0]).levels = {0: self.handles[words[1]]}
        elif call == "glFramebufferTexture2DOES":
            context.at(words[0]).attached[words[1]] = context.group.get((Texture, words[3]))
        elif call == "glFramebufferRenderbufferOES":
            context.at(words[0]).attached[words[1]] = context.group.get((Renderbuffer, words[3]))

    def bind(self, context, target, name):
        """What a name has is bound, and made where it has nothing."""
        kind = TARGETS[target]
        if name != "0" and not context.group.get((kind, name)):
            context.group[kind, name] = kind()
        context.bound[target] = context.group.get((kind, name)) if name != "0" else None

    def delete(self, context, thing):
        """What is deleted is unbound in the caller's context, and detached from the framebuffer that this has bound."""
        if thing:
            framebuffer = context.bound.get("GL_FRAMEBUFFER_OES")
            if framebuffer:
                framebuffer.attached = {point: other for point, other in framebuffer.attached.items() if other is not thing}
            context.bound = {target: other for target, other in context.bound.items() if other is not thing}


class Orders:
    """Which entries lead to others beside those of their thread."""

    def __init__(self):
        # By what an entry gave its place: the answer of a variable, the first post of a number, the making of a sync.
        self.answers, self.posts, self.syncs = {}, {}, {}
        # By a thread and a line the sync of a wait that began there.
        self.begun = {}

    def behind(self, line, entry, words):
        found = [self.answers[name] for name in variables_in(line)]
        if line.call == "await":
            found.append(self.posts[words[0]])
        is_end = line.call == "eglClientWaitSync" and (entry.thread, entry.number) in self.begun
        if entry.is_done() and (line.call == "eglWaitSync" or line.call == "eglClientWaitSync" and (is_end or entry.value == SATISFIED)):
            found.append(self.syncs[self.begun[entry.thread, entry.number] if is_end else words[1]])
        return found

    def learn(self, place, line, entry, words):
        if entry.outcome == "waiting":
            self.begun[entry.thread, entry.number] = words[1]
        elif line.variable:
            self.answers[line.variable] = place
        if line.call == "post":
            self.posts.setdefault(words[0], place)
        if line.call == "eglCreateSync" and entry.is_done():
            self.syncs[entry.value] = place


def replaced(word, values):
    """A word with the numbers of its variables."""
    if word.startswith("["):
        return "[" + ",".join(replaced(item, values) for item in word[1:-1].split(",")) + "]"
    if not word.startswith("$"):
        return word
    name, _, place = word[1:].partition(".")
    value, listed = values[name]
    return value if not place else listed[int(place)] if int(place) < len(listed) else "0"


def races_of(trace, recording):
    """The text of `races` for a trace of which this is the recording by turns, and how many entries touch something."""
    lines, windows = lines_of(trace)
    entries, behind_end = entries_of(recording)
    objects, orders, values, last = Objects(windows), Orders(), {}, {}
    reads, writes, ordered, pairs = [], [], [], []
    for place, entry in enumerate(entries):
        line = lines[entry.number]
        words = [replaced(word, values) for word in line.words]
        # As bits the places that are ordered before this one.
        before = 0
        for earlier in orders.behind(line, entry, words) + ([last[entry.thread]] if entry.thread in last else []):
            before |= ordered[earlier] | 1 << earlier
        found = objects.touches(entry.thread, line.call, words) if entry.is_done() else ([], [])
        read, written = ({thing for thing in things if thing} for things in found)
        for k in range(place):
            is_touched = writes[k] & (read | written) or reads[k] & written
            if is_touched and entries[k].thread != entry.thread and not before >> k & 1:
                pairs.append((k, place))
        reads.append(read)
        writes.append(written)
        ordered.append(before)
        last[entry.thread] = place
        orders.learn(place, line, entry, words)
        if entry.outcome != "waiting" and line.variable:
            values[line.variable] = entry.value, entry.listed
        if entry.is_done():
            objects.play(entry.thread, line.call, words, entry.value)
    told = [f"race {entries[i].thread} {entries[i].number} {entries[j].thread} {entries[j].number}" for i, j in sorted(pairs)]
    return "\n".join([f"races {len(told)}", *told, "end", *behind_end]) + "\n", sum(bool(r or w) for r, w in zip(reads, writes))
