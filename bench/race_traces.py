"""Random traces of two or three threads that meet at few objects, for `random_runs races`."""

TEXTURE, RENDERBUFFER, FRAMEBUFFER = "GL_TEXTURE_2D", "GL_RENDERBUFFER_OES", "GL_FRAMEBUFFER_OES"
BUFFERS = ["GL_ARRAY_BUFFER", "GL_ELEMENT_ARRAY_BUFFER"]
COLOR, DEPTH = "GL_COLOR_ATTACHMENT0_OES", "GL_DEPTH_ATTACHMENT_OES"
PIXELS = "GL_RGBA GL_UNSIGNED_BYTE"
DELETES = ["glDeleteTextures", "glDeleteBuffers", "glDeleteRenderbuffersOES", "glDeleteFramebuffersOES"]


class RaceDraft:
    """Each line waits for lines above it at most, but for a client wait, whose flush stands below it, and now and then an await in vain."""

    def __init__(self, draw):
        self.draw, self.threads = draw, draw.choice([2, 2, 3])
        self.lines = [f"egl-trace 1 {self.threads}", "window 7 2 2", "window 8 1 1"]
        self.variables, self.posted = 0, 0
        self.surfaces, self.contexts, self.images, self.syncs, self.names = [], [], [], [], []

    def add(self, thread, call, keep=None):
        """Adds a line; its answer is kept for others."""
        if keep is not None:
            self.variables += 1
            keep.append(f"$v{self.variables}")
            call = f"{keep[-1]} = {call}"
        self.lines.append(f"{thread} {call}")

    def any(self, known):
        return self.draw.choice(known[-6:]) if known and self.draw.random() < 0.95 else "0"

    def name(self):
        """A name: mostly 1 or 2, at which threads meet, or one that a line was given."""
        given = [f"{name}.{self.draw.randint(0, 2)}" for name in self.names[-1:]]
        return self.draw.choice(["1"] * 4 + ["2"] * 3 + ["3", "0"] + given)

    def begin(self):
        self.add(0, "eglInitialize 1")
        for thread in range(self.threads):
            share = self.contexts[0] if self.contexts and self.draw.random() < 0.85 else "0"
            made = self.draw.choice(["eglCreatePbufferSurface 1 4 [EGL_WIDTH,2,EGL_HEIGHT,2]", "eglCreateWindowSurface 1 4 7 []", "eglCreateWindowSurface 1 4 8 []"])
            self.add(thread, made, self.surfaces)
            self.add(thread, f"eglCreateContext 1 4 {share} []", self.contexts)
            self.add(thread, f"eglMakeCurrent 1 {self.surfaces[-1]} {self.surfaces[-1]} {self.contexts[-1]}")

    def image_data(self):
        sides = self.draw.choice(["2 2", "2 2", "1 1", "2 1", "0 2"])
        return f"glTexImage2D {TEXTURE} {self.draw.choice([0, 0, 0, 1])} GL_RGBA {sides} 0 {PIXELS} *4:11223344"

    def textures(self):
        level = self.draw.choice([0, 0, 0, 1])
        return [
            (4, f"glBindTexture {TEXTURE} {self.name()}"),
            (3, self.image_data()),
            (2, f"glTexSubImage2D {TEXTURE} {level} 0 0 1 1 {PIXELS} #55667788"),
            (1, f"glTexParameterx {TEXTURE} GL_TEXTURE_MIN_FILTER {self.draw.choice(['GL_NEAREST', 'GL_LINEAR', 'GL_RGBA'])}"),
            (1, f"glTexParameteriv {TEXTURE} GL_TEXTURE_CROP_RECT_OES [0,0,1,1]"),
            (2, f"glCopyTexImage2D {TEXTURE} {level} GL_RGBA 0 0 {self.draw.choice(['1 1', '2 2', '0 1'])} 0"),
            (2, f"glCopyTexSubImage2D {TEXTURE} {level} 0 0 0 0 1 1"),
            (0.5, f"glIsTexture {self.name()}"),
        ]

    def pixels(self):
        return [
            (2, f"glClear {self.draw.choice(['GL_COLOR_BUFFER_BIT', 'GL_COLOR_BUFFER_BIT|GL_DEPTH_BUFFER_BIT', 'GL_DEPTH_BUFFER_BIT', '8'])}"),
            (2, f"glReadPixels 0 0 1 1 {PIXELS}"),
            (3, f"glDrawTexiOES 0 0 0 {self.draw.choice([0, 1, 1, 1])} 1"),
            (1, "glDrawTexxOES 0 0 0 65536 65536"),
            (2, f"{self.draw.choice(['glEnable', 'glEnable', 'glDisable'])} {TEXTURE}"),
            (0.5, f"glColorMask {self.draw.randint(0, 1)} 1 1 1"),
            (0.5, "glGetError"),
        ]

    def buffers(self):
        target = self.draw.choice(BUFFERS)
        return [
            (3, f"glBindBuffer {target} {self.name()}"),
            (2, f"glBufferData {target} {self.draw.choice([0, 4, 4, 4, -1])} GL_STATIC_DRAW #01020304"),
            (1, f"glBufferSubData {target} 0 2 #0506"),
            (1, f"readBuffer {target} 0 {self.draw.choice([1, 4, 5])}"),
            (1, f"glGetBufferParameteriv {target} GL_BUFFER_SIZE"),
        ]

    def renderbuffers(self):
        form = self.draw.choice(["GL_RGBA8_OES", "GL_RGBA8_OES", "GL_DEPTH_COMPONENT16_OES"])
        return [
            (2, f"glBindRenderbufferOES {RENDERBUFFER} {self.name()}"),
            (2, f"glRenderbufferStorageOES {RENDERBUFFER} {form} {self.draw.choice(['2 2', '2 2', '1 1', '2 -1'])}"),
            (2, f"glGetRenderbufferParameterivOES {RENDERBUFFER} GL_RENDERBUFFER_WIDTH_OES"),
        ]

    def framebuffers(self):
        point = self.draw.choice([COLOR, COLOR, COLOR, DEPTH])
        return [
            (4, f"glBindFramebufferOES {FRAMEBUFFER} {self.name()}"),
            (3, f"glFramebufferTexture2DOES {FRAMEBUFFER} {COLOR} {TEXTURE} {self.name()} 0"),
            (2, f"glFramebufferRenderbufferOES {FRAMEBUFFER} {point} {RENDERBUFFER} {self.name()}"),
            (1, f"glCheckFramebufferStatusOES {FRAMEBUFFER}"),
            (1, f"glGetFramebufferAttachmentParameterivOES {FRAMEBUFFER} {point} GL_FRAMEBUFFER_ATTACHMENT_OBJECT_TYPE_OES"),
        ]

    def currents(self):
        surface, context = self.any(self.surfaces), self.any(self.contexts)
        return [
            (2, f"eglSwapBuffers 1 {surface}"),
            (1, f"readFront {self.draw.choice([7, 7, 8, 9])}"),
            (1.5, f"eglMakeCurrent 1 {surface} {self.draw.choice([surface, self.any(self.surfaces)])} {context}"),
            (0.5, f"eglMakeCurrent 1 0 0 {context}"),
            (0.5, "eglMakeCurrent 1 0 0 0"),
            (0.2, f"eglDestroySurface 1 {surface}"),
            (0.2, f"eglDestroyContext 1 {context}"),
            (0.1, self.draw.choice(["eglTerminate 1", "eglReleaseThread"])),
            (0.3, "census"),
        ]

    def others(self):
        """Calls whose handles others use, and deletions."""
        names = ",".join(self.name() for _ in range(self.draw.choice([1, 1, 2, 3])))
        image = self.any(self.images)
        return [
            (4, f"{self.draw.choice(DELETES)} [{names}]"),
            (1, f"eglWaitSync 1 {self.any(self.syncs)} 0"),
            (0.7, f"eglClientWaitSync 1 {self.any(self.syncs)} {self.draw.choice([0, 'EGL_SYNC_FLUSH_COMMANDS_BIT'])} 0"),
            (0.7, "glFlush"),
            (1.5 + 2 * bool(self.images), f"glEGLImageTargetTexture2DOES {TEXTURE} {image}"),
            (1 + bool(self.images), f"glEGLImageTargetRenderbufferStorageOES {RENDERBUFFER} {image}"),
        ]

    def fence(self, maker, waiter):
        """A fence for which another thread waits, mostly until the maker flushes."""
        self.add(maker, "eglCreateSync 1 EGL_SYNC_FENCE []", self.syncs)
        self.add(waiter, f"eglClientWaitSync 1 {self.syncs[-1]} 0 {self.draw.choice(['EGL_FOREVER', 'EGL_FOREVER', '0'])}", self.draw.choice([None, []]))
        self.add(maker, self.draw.choice(["glFlush", "glFlush", "glFinish", f"eglSwapBuffers 1 {self.any(self.surfaces)}"]))

    def message(self, sender, receiver):
        self.posted += self.draw.choice([0, 1, 1, 1])
        self.add(sender, f"post {self.posted}")
        self.add(receiver, f"await {self.posted}")

    def drawn_to(self, thread):
        """A framebuffer with a colour that threads meet at."""
        name, used = self.draw.choice("12"), self.draw.choice("12")
        self.add(thread, f"glBindFramebufferOES {FRAMEBUFFER} {self.draw.choice('12')}")
        if self.draw.random() < 0.6:
            self.add(thread, f"glBindTexture {TEXTURE} {name}")
            self.add(thread, self.image_data())
            self.add(thread, f"glFramebufferTexture2DOES {FRAMEBUFFER} {COLOR} {TEXTURE} {name} 0")
        else:
            self.add(thread, f"glBindRenderbufferOES {RENDERBUFFER} {used}")
            self.add(thread, f"glRenderbufferStorageOES {RENDERBUFFER} GL_RGBA8_OES 2 2")
            self.add(thread, f"glFramebufferRenderbufferOES {FRAMEBUFFER} {COLOR} {RENDERBUFFER} {used}")
        self.add(thread, "glClear GL_COLOR_BUFFER_BIT")

    def step(self):
        thread, other = self.draw.sample(range(self.threads), 2)
        chance = self.draw.random()
        if chance < 0.05:
            self.message(thread, other)
        elif chance < 0.09:
            self.fence(thread, other)
        elif chance < 0.17:
            self.drawn_to(thread)
        elif chance < 0.22:
            source, level = self.draw.choice([("EGL_GL_TEXTURE_2D", "[]"), ("EGL_GL_TEXTURE_2D", "[EGL_GL_TEXTURE_LEVEL,0]"), ("EGL_GL_RENDERBUFFER", "[]")])
            self.add(thread, f"eglCreateImage 1 {self.any(self.contexts)} {source} {self.draw.choice('12')} {level}", self.images)
        elif chance < 0.24:
            self.add(thread, f"glGenTextures {self.draw.randint(1, 3)}", self.names)
        elif chance < 0.2415:
            self.add(thread, "await 99")
        else:
            calls = self.textures() + self.pixels() + self.buffers() + self.renderbuffers() + self.framebuffers() + self.currents() + self.others()
            self.add(thread, self.draw.choices(calls, [call[0] for call in calls])[0][1])


def drafted(draw):
    """A trace."""
    draft = RaceDraft(draw)
    draft.begin()
    for _ in range(draw.randint(10, 60)):
        draft.step()
    return "\n".join(draft.lines) + "\n"
