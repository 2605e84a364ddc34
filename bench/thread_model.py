"""The model of one thread (driver_model.py), with several: what is current to each, fences, waits, and what threads tell one another.

It shares nothing with the driver. A call is made by a thread; a wait that blocks is begun, and ended when its fence is signalled.
"""
from dataclasses import dataclass, field

from driver_model import Context, Model, refuse

BUFFER_BITS = ["GL_COLOR_BUFFER_BIT", "GL_DEPTH_BUFFER_BIT", "GL_STENCIL_BUFFER_BIT"]
SYNC_ATTRIBUTES = {"EGL_SYNC_TYPE": "EGL_SYNC_FENCE", "EGL_SYNC_CONDITION": "EGL_SYNC_PRIOR_COMMANDS_COMPLETE"}


@dataclass(eq=False)
class Sync:
    context: Context
    is_signalled: bool = False


@dataclass(eq=False)
class Thread:
    error: str = "EGL_SUCCESS"
    current: list = None
    # The fence for which it waits.
    awaited: Sync = None


class Waiting(Exception):
    """The call waits for a fence."""


class ThreadModel(Model):
    def __init__(self, windows, video, threads):
        super().__init__(windows, video)
        self.threads = [Thread() for _ in range(threads)]
        self.playing = 0

    def alive(self, kind):
        """What is reached from handles, from what is current to any thread, and from waits."""
        mine, found = self.current, set()
        held = [thread.current for number, thread in enumerate(self.threads) if number != self.playing] + [mine]
        for current in held:
            self.current = current
            found |= super().alive(kind)
        self.current = mine
        return found | {thread.awaited for thread in self.threads if isinstance(thread.awaited, kind)}

    def census(self):
        *counts, _, live = super().census()
        return [*counts, len(self.alive(Sync)), live]

    def others(self):
        """What is current to the other threads."""
        return [thing for number, thread in enumerate(self.threads) if number != self.playing for thing, _ in thread.current or [] if thing]

    def flush(self, context):
        for sync in self.alive(Sync):
            sync.is_signalled |= sync.context is context

    def is_over(self, sync):
        """Whether a fence is signalled; one whose context is gone is."""
        return sync.is_signalled or sync.context not in self.alive(Context)

    def sync(self, display, number):
        self.display(display)
        sync = self.of(display, number, Sync)
        refuse((not sync, "EGL_BAD_PARAMETER"))
        return sync

    # ---- calls that the model of one thread hasn't, or that ask for other threads

    def eglGetDisplay(self, native):
        return {0: 1, 1: 2}.get(native, 0)

    def eglBindAPI(self, api):
        refuse((api != "EGL_OPENGL_ES_API", "EGL_BAD_PARAMETER"))
        return 1

    def eglQueryAPI(self):
        return "EGL_OPENGL_ES_API"

    def eglMakeCurrent(self, display, draw, read, context):
        former, was, drawer = self.context(), self.current, self.of(display, context, Context)
        boxes = dict(drawer.boxes) if drawer else {}
        value = super().eglMakeCurrent(display, draw, read, context)
        if any(thing in self.others() for thing, _ in self.current or [] if thing):
            self.current, drawer.boxes = was, boxes
            refuse((True, "EGL_BAD_ACCESS"))
        if former:
            self.flush(former)
        return value

    def eglReleaseThread(self):
        if self.current:
            self.flush(self.context())
        return super().eglReleaseThread()

    def eglGetCurrentDisplay(self):
        return self.context().display if self.current else 0

    def eglQueryContext(self, display, number, attribute):
        self.display(display)
        context = self.of(display, number, Context)
        drawn = any(current and current[0][0] is context and current[1][0] for current in [self.current, *(thread.current for thread in self.threads)])
        values = {"EGL_CONFIG_ID": context.config if context else 0, "EGL_CONTEXT_CLIENT_TYPE": "EGL_OPENGL_ES_API", "EGL_CONTEXT_CLIENT_VERSION": 1, "EGL_RENDER_BUFFER": "EGL_BACK_BUFFER" if drawn else "EGL_NONE"}
        refuse((not context, "EGL_BAD_CONTEXT"), (attribute not in values, "EGL_BAD_ATTRIBUTE"))
        return values[attribute]

    def eglSwapBuffers(self, display, number):
        value = super().eglSwapBuffers(display, number)
        self.flush(self.context())
        return value

    def eglWaitClient(self):
        if self.current:
            self.flush(self.context())
        return 1

    def glFlush(self, context):
        self.flush(context)
        return 0

    glFinish = glFlush

    def glClear(self, context, mask):
        """Any bits of the three buffers: that of the colour is all that counts."""
        is_known = mask in range(8) if isinstance(mask, int) else set(mask.split("|")) <= set(BUFFER_BITS)
        has_colour = mask & 1 if isinstance(mask, int) else BUFFER_BITS[0] in mask
        return super().glClear(context, BUFFER_BITS[0 if has_colour else 1] if is_known else -1)

    def eglCreateSync(self, display, kind, attributes):
        self.display(display)
        refuse((kind != "EGL_SYNC_FENCE" or attributes != "[]", "EGL_BAD_ATTRIBUTE"), (not self.current or self.context().display != display, "EGL_BAD_MATCH"))
        return self.named(display, Sync(self.context()))

    def eglDestroySync(self, display, number):
        self.sync(display, number)
        del self.handles[number]
        return 1

    def eglClientWaitSync(self, display, number, flags, timeout):
        sync = self.sync(display, number)
        if flags & 1 and not self.is_over(sync) and self.current:
            self.flush(self.context())
        if self.is_over(sync):
            return "EGL_CONDITION_SATISFIED"
        if timeout < 0:
            self.threads[self.playing].awaited = sync
            raise Waiting
        return "EGL_TIMEOUT_EXPIRED"

    def eglWaitSync(self, display, number, flags):
        sync = self.sync(display, number)
        refuse((flags != 0, "EGL_BAD_PARAMETER"), (not self.current, "EGL_BAD_MATCH"))
        sync.is_signalled = True
        return 1

    def eglGetSyncAttrib(self, display, number, attribute):
        sync = self.sync(display, number)
        values = {**SYNC_ATTRIBUTES, "EGL_SYNC_STATUS": "EGL_SIGNALED" if self.is_over(sync) else "EGL_UNSIGNALED"}
        refuse((attribute not in values, "EGL_BAD_ATTRIBUTE"))
        return values[attribute]

    # ---- threads

    def play_by(self, number, name, arguments):
        """The outcome, the value, the list and the bytes of a thread's call; None where it waits now."""
        thread = self.threads[number]
        self.playing, self.error, self.current = number, thread.error, thread.current
        try:
            answer = self.play(name, arguments)
        except Waiting:
            self.error, answer = "EGL_SUCCESS", None
        thread.error, thread.current = self.error, self.current
        return answer

    def may_end_wait(self, number):
        return self.is_over(self.threads[number].awaited)

    def end_wait(self, number):
        self.threads[number].awaited = None
        return "ok", "EGL_CONDITION_SATISFIED", [], b""
