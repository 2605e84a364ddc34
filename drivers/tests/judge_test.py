#!/usr/bin/env python3
"""Tests of the judge and of what is around it, over logs that the program's own recordings spell: `judge_test.py [--program PATH]`."""
import importlib.machinery
import importlib.util
import os
import sys

sys.dont_write_bytecode = True
HERE = os.path.dirname(os.path.abspath(__file__))
sys.path.insert(0, os.path.dirname(HERE))
import corpus
from c_program import c_program
from judge import Difference, judge
from logs import Malformed, read
from oracle import Oracle
from proved import Proved
from waivers import Waiver, cure_of, waive

INNER = ("census", "readFront", "readBuffer")
PRE = """egl-log 1 2
config 12 8 8 8 8 0 0
0 $d = eglGetDisplay 0 => ok 1390
0 eglInitialize $d => ok 1
0 $k = eglChooseConfig $d [EGL_ALPHA_SIZE,8] => ok 1 [12,99]
0 $s = eglCreatePbufferSurface $d $k.0 [EGL_WIDTH,2,EGL_HEIGHT,2] => ok 77
0 $c = eglCreateContext $d $k.0 0 [] => ok 78
0 eglMakeCurrent $d $s $s $c => ok 1
"""

# Each case: lines behind those of PRE, what is told, and the steps that are allowed.
CASES = [
    ("all agrees", "", ""),
    ("another error of those that hold is kept", "1 eglMakeCurrent $d 0 $s 0 => EGL_BAD_MATCH\n1 eglSwapBuffers 9 $d => EGL_BAD_SURFACE\n1 eglGetError => ok EGL_BAD_SURFACE\n", ""),
    ("a context takes the first of the errors that are noted, be it another than ours", "0 glTexImage2D GL_TEXTURE_2D 0 GL_RGB 3 2 0 GL_RGBA GL_UNSIGNED_BYTE - => GL_INVALID_OPERATION\n0 glEnable GL_BLEND => GL_INVALID_ENUM\n0 glGetError => ok GL_INVALID_OPERATION\n0 glGetError => ok GL_NO_ERROR\n", ""),
    ("the driver refuses what we do, and the state is as before", "0 glClearColorx 65536 0 0 65536 => GL_INVALID_VALUE\n0 glClear GL_COLOR_BUFFER_BIT => ok 0\n0 glReadPixels 0 0 1 1 GL_RGBA GL_UNSIGNED_BYTE => ok 0 [] 00000000\n0 glGetError => ok GL_INVALID_VALUE\n", "difference 9 outcome ok GL_INVALID_VALUE"),
    ("what a lost variable is used for isn't judged, and after an eglMakeCurrent nothing of the context", "0 $e = eglCreateContext $d 12 0 [EGL_CONTEXT_CLIENT_VERSION,2] => ok 79\n0 eglQueryContext $d $e EGL_CONFIG_ID => ok 12\n0 eglMakeCurrent $d $s $s $e => ok 1\n0 glEnable GL_DITHER => ok 0\n0 eglMakeCurrent $d $s $s $c => ok 1\n0 glEnable GL_DITHER => ok 0\n", "difference 9 outcome EGL_BAD_CONFIG ok\nafter 10 9\nafter 11 9\nafter 12 9"),
    ("a handle that another has", "0 $e = eglCreatePbufferSurface $d 12 [] => ok 77\n0 eglDestroySurface $d $e => ok 1\n", "difference 9 value - 77\nafter 10 9"),
    ("a handle that another had", "0 eglMakeCurrent $d 0 0 0 => ok 1\n0 eglDestroySurface $d $s => ok 1\n0 $e = eglCreatePbufferSurface $d 12 [] => ok 77\n", ""),
    ("handles by the map", "0 eglGetCurrentContext => ok 78\n0 eglGetCurrentSurface EGL_DRAW => ok 78\n0 eglGetCurrentDisplay => ok 1390\n", "difference 10 value 77 78"),
    ("configs by their sizes", "0 eglGetConfigs $d => ok 1 [7,12,9]\n0 eglQuerySurface $d $s EGL_CONFIG_ID => ok 12\n0 eglCreatePbufferSurface $d 9 [] => ok 80\n0 eglGetConfigAttrib $d 12 EGL_NATIVE_VISUAL_ID => ok 33\n", "unjudged 11 config"),
    ("names by the map", "0 $t = glGenTextures 2 => ok 0 [2,1]\n0 glBindTexture GL_TEXTURE_2D $t.0 => ok 0\n0 glGetIntegerv GL_TEXTURE_BINDING_2D 0 => ok 2\n0 glBindTexture GL_TEXTURE_2D 1 => ok 0\n0 glDeleteTextures [$t.0,$t.1] => ok 0\n0 glBindTexture GL_TEXTURE_2D 1 => ok 0\n0 glGetIntegerv GL_TEXTURE_BINDING_2D 0 => ok 1\n", "unjudged 12 name"),
    ("what rests on the binding of another name isn't judged", "0 $r = glGenRenderbuffersOES 2 => ok 0 [2,1]\n0 glBindRenderbufferOES GL_RENDERBUFFER_OES 1 => ok 0\n0 glRenderbufferStorageOES GL_RENDERBUFFER_OES GL_RGBA4_OES 1 1 => GL_INVALID_OPERATION\n0 glBindRenderbufferOES GL_RENDERBUFFER_OES $r.0 => ok 0\n0 glRenderbufferStorageOES GL_RENDERBUFFER_OES GL_RGBA4_OES 1 1 => ok 0\n", "unjudged 10 name\nafter 11 10"),
    ("nor what is drawn with another texture", "0 $t = glGenTextures 2 => ok 0 [2,1]\n0 glBindTexture GL_TEXTURE_2D 1 => ok 0\n0 glDrawTexiOES 0 0 0 1 1 => ok 0\n0 glBindTexture GL_TEXTURE_2D 0 => ok 0\n0 glReadPixels 0 0 1 1 GL_RGBA GL_UNSIGNED_BYTE => ok 0 [] 01020304\n1 eglGetError => ok EGL_SUCCESS\n", "unjudged 10 name\nafter 11 10\nafter 12 10\nafter 13 10"),
    ("names that aren't apart", "0 $t = glGenTextures 2 => ok 0 [1,1]\n0 glBindTexture GL_TEXTURE_2D $t.0 => ok 0\n", "difference 9 list [1,2] [1,1]\nafter 10 9"),
    ("a fence that is signalled early", "0 $y = eglCreateSync $d EGL_SYNC_FENCE [] => ok 5\n1 eglGetSyncAttrib $d $y EGL_SYNC_STATUS => ok EGL_SIGNALED\n1 eglClientWaitSync $d $y 0 EGL_FOREVER => ok EGL_CONDITION_SATISFIED\n0 eglGetError => ok EGL_SUCCESS\n", ""),
    ("a fence that isn't signalled late", "0 $y = eglCreateSync $d EGL_SYNC_FENCE [] => ok 5\n0 eglClientWaitSync $d $y 0 0 => ok EGL_TIMEOUT_EXPIRED\n0 glFlush => ok 0\n1 eglClientWaitSync $d $y 0 0 => ok EGL_TIMEOUT_EXPIRED\n", "difference 12 value EGL_CONDITION_SATISFIED EGL_TIMEOUT_EXPIRED"),
    ("pixels", "0 glClear GL_COLOR_BUFFER_BIT => ok 0\n0 glReadPixels 0 0 2 2 GL_RGBA GL_UNSIGNED_BYTE => ok 0 [] 00000000000000010000000002000000\n", "difference 10 pixels 2 4 2 1 0 1 1 1 0 00000000 00000001"),
    ("pixels within a step", "0 glReadPixels 0 0 2 1 GL_RGBA GL_UNSIGNED_BYTE => ok 0 [] 0000000000000001\n", "", 1),
    ("too few bytes", "0 glReadPixels 0 0 2 1 GL_RGBA GL_UNSIGNED_BYTE => ok 0 [] 00000000\n", "difference 9 length 8 4"),
    ("a step of a framebuffer's format", "0 glBindRenderbufferOES GL_RENDERBUFFER_OES 1 => ok 0\n0 glRenderbufferStorageOES GL_RENDERBUFFER_OES GL_RGBA4_OES 1 1 => ok 0\n0 glBindFramebufferOES GL_FRAMEBUFFER_OES 1 => ok 0\n0 glFramebufferRenderbufferOES GL_FRAMEBUFFER_OES GL_COLOR_ATTACHMENT0_OES GL_RENDERBUFFER_OES 1 => ok 0\n0 glReadPixels 0 0 1 1 GL_RGBA GL_UNSIGNED_BYTE => ok 0 [] 11001122\n", "difference 13 pixels 1 1 2 0 0 0 0 0 0 00000000 11001122", 1),
    ("a log that a crash cut", "0 glFlush\ncrash SIGSEGV\n", "cut 9 glFlush SIGSEGV"),
    ("what threads tell one another", "0 post 1\n1 await 1\n", ""),
    ("another error than those that hold", "0 glEnable GL_BLEND => GL_INVALID_VALUE\n0 glGetError => ok GL_INVALID_VALUE\n", "difference 9 outcome GL_INVALID_ENUM GL_INVALID_VALUE\ndifference 10 value GL_INVALID_ENUM GL_INVALID_VALUE"),
    ("other configs", "0 eglGetConfigs $d => ok 1 [7,9]\n", "difference 9 list [12] []"),
]
# What the proved judge tells otherwise: nothing stands for names that can't be, what rests on a binding is played, an error that came is the thread's, a list stands as it came, and a config that stands twice has the reason of a head.
APART = {
    "another error than those that hold": "difference 9 outcome GL_INVALID_ENUM GL_INVALID_VALUE",
    "other configs": "difference 9 list [12] [7,9]",
    "what rests on the binding of another name isn't judged": "unjudged 10 name",
    "nor what is drawn with another texture": "unjudged 10 name\ndifference 13 pixels 1 1 254 0 0 0 0 0 0 ffffffff 01020304",
    "names that aren't apart": "difference 9 list [-,-] [1,1]\nafter 10 9",
    "a config twice": "malformed 3 Window",
}
DUMP = """
// process.name = "x"
5 @1 eglGetDisplay(display_id = NULL) = 0x7f00
6 @1 eglInitialize(dpy = 0x7f00, major = &1, minor = &5) = EGL_TRUE
7 @1 eglChooseConfig(dpy = 0x7f00, attrib_list = {EGL_ALPHA_SIZE, 8, EGL_NONE}, configs = &0x7fa0, config_size = 1, num_config = &1) = EGL_TRUE
8 @1 eglCreatePbufferSurface(dpy = 0x7f00, config = 0x7fa0, attrib_list = {EGL_WIDTH, 4, EGL_HEIGHT, 2, EGL_NONE}) = 0x7f01
9 @1 eglCreateContext(dpy = 0x7f00, config = 0x7fa0, share_context = NULL, attrib_list = &EGL_NONE) = 0x7f02
10 @1 eglMakeCurrent(dpy = 0x7f00, draw = 0x7f01, read = 0x7f01, ctx = 0x7f02) = EGL_TRUE
11 @1 glViewport(x = 0, y = 0, width = 4, height = 2) // fake
12 @1 glGenTextures(n = 1, textures = &1)
13 @1 glBindTexture(target = GL_TEXTURE_2D, texture = 1)
14 @1 glClearColor(red = 1, green = 0.5, blue = 0, alpha = 1)
15 @1 glRotatef(angle = 1, x = 0, y = 0, z = 1)
16 @1 glEnable(cap = GL_MULTISAMPLE)
17 @1 glGetError() = GL_NO_ERROR
18 @2 eglMakeCurrent(dpy = 0x7f00, draw = 0x7f01, read = 0x7f01, ctx = 0x7f02) = EGL_FALSE
19 @2 eglGetError() = EGL_BAD_ACCESS
20 @1 glTexParameteri(target = GL_TEXTURE_2D, pname = GL_TEXTURE_MIN_FILTER, param = 9728)
21 @1 glBindFramebufferOES(target = GL_FRAMEBUFFER, framebuffer = 0)
22 @1 glFlush() // incomplete
"""
DUMPED = """egl-log 1 2
config 1 8 8 8 8 0 0
# left out 1 glEnable
# left out 1 glRotatef
0 $d1 = eglGetDisplay 0 => ok 32512 []
0 eglInitialize $d1 => ok 1 []
0 eglChooseConfig $d1 [EGL_ALPHA_SIZE,8] => ok 1 [1]
0 $s2 = eglCreatePbufferSurface $d1 1 [EGL_WIDTH,4,EGL_HEIGHT,2] => ok 32513 []
0 $c3 = eglCreateContext $d1 1 0 [] => ok 32514 []
0 eglMakeCurrent $d1 $s2 $s2 $c3 => ok 1 []
0 $n7 = glGenTextures 1 => ok 0 [1]
0 glBindTexture GL_TEXTURE_2D $n7.0 => ok 0 []
0 glClearColorx 65536 32768 0 65536 => ok 0 []
0 glGetError => ok GL_NO_ERROR []
1 eglMakeCurrent $d1 $s2 $s2 $c3 => EGL_BAD_ACCESS
1 eglGetError => ok EGL_BAD_ACCESS []
0 glTexParameterx GL_TEXTURE_2D GL_TEXTURE_MIN_FILTER GL_NEAREST => ok 0 []
0 glBindFramebufferOES GL_FRAMEBUFFER_OES 0 => ok 0 []
0 glFlush
"""
DEFECTS = [
    ("no header", "egl-trace 1 1\n", "malformed 1 Header"),
    ("a thread that isn't there", PRE + "2 glFlush => ok 0\n", "malformed 9 Thread"),
    ("an unknown call", PRE + "0 glFlash => ok 0\n", "malformed 9 Name"),
    ("an unknown outcome", PRE + "0 glFlush => fine\n", "malformed 9 Answer"),
    ("an answer that is missing", PRE + "0 glFlush\n0 glFlush => ok 0\n", "malformed 9 Answer"),
    ("a variable before its line", PRE + "0 eglDestroySurface $d $q => ok 1\n0 $q = eglCreatePbufferSurface $d 12 [] => ok 9\n", "malformed 9 Variable"),
    ("the first of two defects", PRE + "0 glFlash => ok 0\n0 glFlush => fine\n", "malformed 9 Name"),
    ("a config twice", "egl-log 1 1\nconfig 1 5 6 5 0 0 0\nconfig 1 8 8 8 8 0 0\n", "malformed 3 Argument"),
]


def log_of(trace, recording):
    """The log of a run of the program: a wait that blocks has one line, where it returned."""
    if " waiting " in recording and "eglDestroySync" in trace:
        # A wait keeps its sync: where that is destroyed meanwhile, the line at the wait's end has a handle that is none.
        return None
    lines, log = trace.split("\n"), [trace.split("\n")[0].replace("egl-trace", "egl-log")]
    log += [line for line in lines[1:] if line.split()[:1] in (["video"], ["window"])]
    for entry in recording.split("\n")[1:]:
        if entry.startswith("census "):
            break
        thread, number, rest = entry.split(" ", 2)
        call = lines[int(number) - 1].removesuffix("\r")
        words = call.split()
        if words[1] == "readBuffer" and not rest.startswith("ok"):
            # Its error would be asked for, and no log has it.
            return None
        if words[1] in INNER or len(words) > 3 and words[2] == "=" and words[3] in INNER or rest.startswith("waiting"):
            continue
        log.append(f"{call} => {rest}")
    return "\n".join(log) + "\n"


class Tests:
    def __init__(self, oracle, proved):
        self.oracle, self.proved, self.failed, self.count = oracle, proved, 0, 0

    def check(self, name, found, wanted):
        self.count += 1
        if found != wanted:
            self.failed += 1
            print(f"not ok: {name}\n--- wanted\n{wanted}\n--- found\n{found}")

    def judged(self, name, log, wanted, delta=0):
        """The lines behind the first of a log's judgement, and its last words."""
        try:
            text = judge(log, delta, self.oracle).text().split("\n")
        except Malformed as malformed:
            text = [str(malformed), "end", ""]
        self.check(name, "\n".join(text[1:-2]) if len(text) > 3 or text[0].startswith("judged") else text[0], wanted)

    def own_runs(self):
        """What the program plays agrees in each line."""
        for name, make in list(corpus.all_traces(self.oracle.player, 45))[::3]:
            trace = make()
            status, recording = self.oracle.run([self.oracle.player, "serial"], trace)
            log = log_of(trace, recording) if status == 0 else None
            if log:
                self.own_run(name, log)

    def own_run(self, name, log):
        try:
            found, proved = judge(log, 0, self.oracle), self.proved.judged(log)
            self.check(name, (found.text().split("\n")[1:], found.agreed + found.own), (["end", ""], found.lines))
            self.check(f"{name}, proved", (proved.notes(), proved.agreed, proved.own), ([], proved.lines, found.own))
        except Malformed as malformed:
            # A variable in front of its line is no log's.
            self.check(name, malformed.reason, "Variable")

    def relations(self):
        for name, lines, wanted, *delta in CASES:
            self.judged(name, PRE + lines, wanted, *delta)
            self.both(name, PRE + lines, wanted, *delta)
        for name, log, wanted in DEFECTS:
            self.judged(name, log, wanted)
            self.both(name, log, wanted)

    def both(self, name, log, wanted, delta=0):
        """The proved judge tells the same, but for what docs/DRIVERS.md says."""
        try:
            notes = "\n".join(self.proved.judged(log, delta).notes())
        except Malformed as malformed:
            notes = str(malformed)
        self.check(f"{name}, proved", notes, APART.get(name, wanted))

    def shrinks(self):
        """A driver that reads wrong pixels behind a glScissor: of a long trace the lines stay that show it."""
        program, shrink = self.oracle, script("shrink")

        class Wrong:
            def log(self, trace):
                log = log_of(trace, program.run([program.player, "serial"], trace)[1])
                is_wrong = " glScissor " in log
                return "\n".join(line.replace("ok 0 [] 00", "ok 0 [] 01") if is_wrong and "glReadPixels" in line else line for line in log.split("\n"))

        noise = ["0 glIsTexture 5", "1 post 1", "0 await 1", "0 $t = glGenTextures 1", "0 glBindTexture GL_TEXTURE_2D $t.0", "0 glGetError"]
        start = ["egl-trace 1 2", "0 $d = eglGetDisplay 0", "0 eglInitialize $d", "0 $s = eglCreatePbufferSurface $d 4 [EGL_WIDTH,2,EGL_HEIGHT,2]", "0 $c = eglCreateContext $d 4 0 []", "0 eglMakeCurrent $d $s $s $c"]
        shrinking = shrink.Shrinking(Wrong(), self.oracle, self.proved, 0, None)
        lines = [*start, *noise, "0 glScissor 0 0 1 1", *noise[-1:] * 9, "0 glReadPixels 0 0 1 1 GL_RGBA GL_UNSIGNED_BYTE", *noise[-1:] * 9]
        shrinking.wanted, at, log = shrinking.fault(lines)
        small = shrinking.one_thread(shrinking.fewer(shrinking.front(lines, at, log)))
        self.check("a trace is made small", small, ["egl-trace 1 1", *start[1:], "0 glScissor 0 0 1 1", "0 glReadPixels 0 0 1 1 GL_RGBA GL_UNSIGNED_BYTE"])
        program_text = c_program(read(Wrong().log("\n".join(small) + "\n")), "a title", ["an end"])
        self.check("a program in C has each call", [name for name in ("eglInitialize(v_d, NULL, NULL)", "v_s = eglCreatePbufferSurface(v_d", "glScissor(0, 0, 1, 1)", "glReadPixels(0, 0, 1, 1, GL_RGBA, GL_UNSIGNED_BYTE, pixels)") if name not in program_text], [])

    def unwritten(self):
        """Pixels that are to be zero count as any where they were never written, or lie outside."""
        for name, lines, wanted in [
            ("pixels that were never written", "", [True]),
            ("pixels that were cleared", "0 glClear GL_COLOR_BUFFER_BIT => ok 0\n", [False]),
            ("pixels of which a part was cleared", "0 glEnable GL_SCISSOR_TEST => ok 0\n0 glClear GL_COLOR_BUFFER_BIT => ok 0\n", [True]),
            ("pixels of a copy from outside", "0 glClear GL_COLOR_BUFFER_BIT => ok 0\n0 glCopyTexImage2D GL_TEXTURE_2D 0 GL_RGBA 1 0 2 1 0 => ok 0\n0 glTexParameterx GL_TEXTURE_2D GL_TEXTURE_MIN_FILTER GL_NEAREST => ok 0\n0 glEnable GL_TEXTURE_2D => ok 0\n0 glDrawTexiOES 0 0 0 1 1 => ok 0\n", [True]),
        ]:
            log = PRE + lines + "0 glReadPixels 0 0 1 1 GL_RGBA GL_UNSIGNED_BYTE => ok 0 [] 01020304\n"
            self.check(name, [difference.is_zero for difference in judge(log, 0, self.oracle).differences], wanted)
            self.check(f"{name}, proved", [difference.is_zero for difference in self.proved.judged(log).differences], wanted)
        log = PRE + "0 glClear GL_COLOR_BUFFER_BIT => ok 0\n0 glReadPixels 2 0 1 1 GL_RGBA GL_UNSIGNED_BYTE => ok 0 [] 01020304\n"
        self.check("pixels outside", [difference.is_zero for difference in judge(log, 0, self.oracle).differences], [True])
        self.check("pixels outside, proved", [difference.is_zero for difference in self.proved.judged(log).differences], [True])

    def waived(self):
        waivers = [Waiver("", "gl*", "pixels", "1", "*", None), Waiver("", "glEnable", "GL_INVALID_ENUM", "ok", "some_*", None), Waiver("", "eglGetError", "*", "*", "*", "glFlush")]
        pixels = Difference(3, "pixels", "00", "01", "1 1 1 0 0 0 0 0 0 00 01", "glReadPixels")
        enable, asked = Difference(4, "outcome", "GL_INVALID_ENUM", "ok", "", "glEnable"), Difference(5, "value", "GL_INVALID_ENUM", "GL_NO_ERROR", "", "glGetError")
        log = "egl-log 1 1\n0 glFinish => ok 0\n"
        self.check("differences are waived, with the error that is asked for behind them", waive(waivers, "some trace", [pixels, enable, asked], log), [])
        self.check("and others aren't", waive(waivers, "a trace", [pixels, enable, asked], log), [enable, asked])
        cured = [Waiver("", "gl*", "pixels", "1", "*", None, "colour")]
        self.check("a waiver with a cure covers nothing itself", waive(cured, "a trace", [pixels], log), [pixels])
        self.check("but says how to play again", cure_of(cured, "a trace", [pixels], log), cured[0])
        self.check("and not where another covers it", cure_of(cured + waivers, "a trace", [pixels], log), None)
        self.check("nor are those behind a call that isn't there", len(waive(waivers, "a", [Difference(6, "value", "1", "2", "", "eglGetError")], log)), 1)

    def converted(self):
        conversion = script("from_apitrace").Conversion("", ["8", "8", "8", "8", "0", "0"])
        for line in DUMP.strip().split("\n"):
            conversion.convert(line)
        self.check("a dump of apitrace becomes a log", conversion.text(), DUMPED)
        self.judged("which is judged", DUMPED, "cut 19 glFlush")

    def drawn(self):
        """Random traces that a driver can play are in the form of traces."""
        for number in range(6):
            self.check(f"random {number}", self.oracle.run([self.oracle.player, "serial"], corpus.random_trace(number))[0], 0)


def script(name):
    loader = importlib.machinery.SourceFileLoader(name, os.path.join(os.path.dirname(HERE), name))
    module = importlib.util.module_from_spec(importlib.util.spec_from_loader(name, loader))
    loader.exec_module(module)
    return module


def main():
    path = sys.argv[sys.argv.index("--program") + 1] if "--program" in sys.argv else None
    tests = Tests(Oracle(path), Proved(path))
    for part in (tests.relations, tests.unwritten, tests.shrinks, tests.waived, tests.converted, tests.drawn):
        part()
    tests.own_runs()
    print(f"{tests.count} tests, {tests.failed} failed")
    return 1 if tests.failed else 0


if __name__ == "__main__":
    sys.exit(main())
