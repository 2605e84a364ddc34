"""Writes the calls of a log as a plain C program over EGL and OpenGL ES 1.1, which tells what each call answers."""
import os
import re

HERE = os.path.dirname(os.path.abspath(__file__))
FORMS = dict(re.findall(r"CALL\([^,]+, (\w+), \(.*\), \"(\w*)\"\)", open(os.path.join(HERE, "calls.h"), encoding="utf-8").read()))
BITS = {1: "GL_COLOR_BUFFER_BIT", 2: "GL_DEPTH_BUFFER_BIT", 4: "GL_STENCIL_BUFFER_BIT"}
TYPES = {"eglCreateWindowSurface": "EGLSurface", "eglCreatePbufferSurface": "EGLSurface", "eglCreateContext": "EGLContext", "eglCreateSync": "EGLSync", "eglCreateImage": "EGLImage", "eglGetDisplay": "EGLDisplay", "eglGetCurrentContext": "EGLContext", "eglGetCurrentDisplay": "EGLDisplay", "eglGetCurrentSurface": "EGLSurface"}
LONG_ATTRIBUTES = ("eglCreateSync", "eglCreateImage")
# Queries that write one number.
ASKING = {"eglGetConfigAttrib": "EGLint", "eglQuerySurface": "EGLint", "eglQueryContext": "EGLint", "eglGetSyncAttrib": "EGLAttrib", "glGetBufferParameteriv": "GLint", "glGetRenderbufferParameterivOES": "GLint", "glGetFramebufferAttachmentParameterivOES": "GLint"}
ANSWERING = re.compile("glIs|glCheck|eglClientWaitSync|eglQueryAPI|eglGetCurrent")
HEAD = """// {title}
// cc -o shows shows.c -lEGL -lGLESv1_CM{pthread}
#include <EGL/egl.h>
#include <EGL/eglext.h>
#define GL_GLEXT_PROTOTYPES
#include <GLES/gl.h>
#include <GLES/glext.h>
{include}#include <stdio.h>
#include <stdlib.h>
#include <string.h>

// Tells the error of a call, if it has one.
static void told(const char *call) {{
    EGLint error = eglGetError();
    if (error == EGL_SUCCESS && eglGetCurrentContext() != EGL_NO_CONTEXT) error = (EGLint)glGetError();
    printf(error == EGL_SUCCESS || error == 0 ? "%s\\n" : "%s: error 0x%04x\\n", call, (unsigned)error);
    fflush(stdout);
}}
"""
CONFIG = """
// The first config with exactly these sizes.
static EGLConfig config(EGLDisplay display, EGLint red, EGLint green, EGLint blue, EGLint alpha, EGLint depth, EGLint stencil) {
    static const EGLint names[] = {EGL_RED_SIZE, EGL_GREEN_SIZE, EGL_BLUE_SIZE, EGL_ALPHA_SIZE, EGL_DEPTH_SIZE, EGL_STENCIL_SIZE};
    const EGLint wanted[] = {red, green, blue, alpha, depth, stencil};
    EGLConfig all[512];
    EGLint count = 0;
    eglGetConfigs(display, all, 512, &count);
    for (int k = 0; k < count; k++) {
        int same = 1;
        for (int n = 0; n < 6; n++) {
            EGLint size = -1;
            eglGetConfigAttrib(display, all[k], names[n], &size);
            same = same && size == wanted[n];
        }
        if (same) return all[k];
    }
    printf("no such config\\n");
    exit(2);
}
"""
PIXELS = """
static void told_pixels(const unsigned char *pixels, size_t size) {
    for (size_t k = 0; k < size; k++) printf("%02x", pixels[k]);
    printf("\\n");
}
"""
TURNS = """
// The threads take turns: each call has a number, and is made when the ones before it are done.
static pthread_mutex_t lock = PTHREAD_MUTEX_INITIALIZER;
static pthread_cond_t passed = PTHREAD_COND_INITIALIZER;
static int now;
static void turn(int number) {
    pthread_mutex_lock(&lock);
    while (now != number) pthread_cond_wait(&passed, &lock);
    pthread_mutex_unlock(&lock);
}
static void next(void) {
    pthread_mutex_lock(&lock);
    now++;
    pthread_cond_broadcast(&passed);
    pthread_mutex_unlock(&lock);
}
"""


def number(word, is_signed):
    """A number as C has it."""
    if re.fullmatch(r"[0-9]+", word) and int(word) > 2_147_483_647:
        return f"(GLint){word}u" if is_signed else f"{word}u"
    return word


class Writer:
    def __init__(self, log):
        self.log, self.globals, self.lists = log, [], {line.variable for line in log.lines if line.variable and line.name.startswith("glGen")}
        self.windows = {words[1]: words[2:] for words in (text.split() for text in log.head.values()) if words[0] == "window"}

    def value(self, word, as_handle=False):
        found = re.fullmatch(r"\$(\w+?)(?:\.(\d+))?", word)
        if found:
            return f"v_{found[1]}" + (f"[{found[2]}]" if found[2] else "")
        if as_handle and re.fullmatch(r"-?[0-9]+", word):
            return "NULL" if word == "0" else f"(void *)(intptr_t){word}"
        return word

    def config(self, word, display):
        listed = re.fullmatch(r"\$(\w+)\.(\d+)", word)
        if listed:
            answer = next(line.answer for line in self.log.lines if line.variable == listed[1])
            word = answer.list[int(listed[2])] if int(listed[2]) < len(answer.list) else "0"
        sizes = self.log.configs.get(int(word)) if word.isdigit() else None
        return f"config({display}, {', '.join(map(str, sizes))})" if sizes else f"(EGLConfig)(intptr_t){word}"

    def items(self, word):
        return [self.value(item) for item in word[1:-1].split(",")] if word != "[]" else []

    def payload(self, word, line):
        """The bytes that a call takes, followed by zeros."""
        if word == "-":
            return "NULL"
        digits = word[1:] if word.startswith("#") else word.split(":")[1] * int(word[1:].split(":")[0])
        numbers = [int(w, 0) for w in line.words if re.fullmatch(r"[0-9]+", w)] + [1]
        room = min(max([len(digits) // 2, *(4 * a * b + 8 * b for a in numbers for b in numbers if a * b < 1 << 22), *numbers[:3]]) + 8, 1 << 24)
        name = f"bytes_{line.number}"
        self.globals.append(f"static const unsigned char {name}[{room}] = {{{', '.join('0x' + digits[k:k + 2] for k in range(0, len(digits), 2)) or '0'}}};")
        return name

    def arguments(self, line):
        args = []
        for form, word in zip(FORMS[line.name], line.words):
            if form == "c":
                args.append(self.config(word, self.value(line.words[0], True)))
            elif form == "a":
                kind = "EGLAttrib" if line.name in LONG_ATTRIBUTES else "EGLint"
                args.append(f"(const {kind}[]){{{', '.join([*map(lambda w: number(w, True), self.items(word)), 'EGL_NONE'])}}}")
            elif form in "il":
                items = self.items(word)
                listed = f"(const {'GLuint' if form == 'l' else 'GLint'}[]){{{', '.join(items) or '0'}}}"
                args.extend([str(len(items)), listed] if form == "l" else [listed])
            elif form == "m" and word.isdigit():
                args.append("|".join(name for bit, name in BITS.items() if int(word) & bit) or "0")
            elif form == "b":
                args.append(self.payload(word, line))
            elif form == "d":
                args.append("EGL_DEFAULT_DISPLAY")
            elif form == "v" or form == "u" and line.name == "eglCreateImage":
                value = self.value(word, True)
                args.append(f"(EGLClientBuffer)(intptr_t){value}" if form == "u" else value)
            else:
                args.append(number(self.value(word), form == "n"))
        if line.name == "glBufferData":
            args = [args[0], args[1], args[3], args[2]]
        return args

    def statement(self, line):
        """The C of a call, which tells its answer."""
        name, quoted = line.name, f'"{line.name}"'
        if name in ("eglGetError", "glGetError", "front"):
            return ["// Errors are asked for behind each call." if name != "front" else f"// What window {line.words[0]} shows."]
        args = self.arguments(line)
        target = ""
        if line.variable and name in TYPES:
            self.globals.append(f"static {TYPES[name]} v_{line.variable};")
            target = f"v_{line.variable} = "
        if name == "eglInitialize":
            return [f"eglInitialize({args[0]}, NULL, NULL);", f"told({quoted});"]
        if name == "eglCreateWindowSurface":
            width, height = self.windows.get(line.words[2], ("1", "1"))
            return [f"// A window of these sides, or where there are none a pbuffer.", f"{target}eglCreatePbufferSurface({args[0]}, {args[1]}, (const EGLint[]){{EGL_WIDTH, {width}, EGL_HEIGHT, {height}, EGL_NONE}});", f"told({quoted});"]
        if name in ("eglGetConfigs", "eglChooseConfig"):
            return [f"{{ EGLConfig all[512]; EGLint count = 0; {name}({', '.join([*args, 'all', '512', '&count'])}); printf(\"%d configs\\n\", count); }}", f"told({quoted});"]
        if name.startswith("glGen"):
            self.globals.append(f"static GLuint v_{line.variable or line.number}[256];")
            return [f"{name}({args[0]}, v_{line.variable or line.number});", f"told({quoted});"]
        if name == "glReadPixels":
            size = "4" if "RGBA" in args[4] else "2"
            room = f"(size_t)({args[2]} > 0 ? {args[2]} : 0) * ({args[3]} > 0 ? {args[3]} : 0) * {size}"
            return ["{", f"    size_t size = {room};", "    unsigned char *pixels = calloc(1, size + 65536);", f"    glReadPixels({', '.join([*args, 'pixels'])});", f"    told({quoted});", "    told_pixels(pixels, size);", "    free(pixels);", "}"]
        if name == "glGetIntegerv":
            return [f"{{ GLint values[16] = {{0}}; glGetIntegerv({args[0]}, values); printf(\"%d\\n\", values[{args[1]}]); }}", f"told({quoted});"]
        if name in ASKING:
            return [f"{{ {ASKING[name]} value = 0; {name}({', '.join([*args, '&value'])}); printf(\"0x%lx\\n\", (long)value); }}", f"told({quoted});"]
        if ANSWERING.match(name) and not target:
            return [f"printf(\"0x%lx\\n\", (long){name}({', '.join(args)}));", f"told({quoted});"]
        return [f"{target}{name}({', '.join(args)});", f"told({quoted});"]


def extensions(lines):
    """The calls of extensions, which a program asks for by name."""
    names = sorted({line.name for line in lines if line.name.endswith("OES")})
    pointers = "".join(f"static PFN{name.upper()}PROC p_{name};\n#define {name} p_{name}\n" for name in names)
    loads = "".join(f'    p_{name} = (PFN{name.upper()}PROC)eglGetProcAddress("{name}");\n' for name in names)
    return pointers, loads


def c_program(log, title, closing):
    """The program of a log's calls; `closing` are lines for its end that say what the specification has."""
    lines = [line for line in log.lines if line.name not in ("post", "await")]
    threads = sorted({line.thread for line in lines})
    writer, bodies, is_many = Writer(log), {thread: [] for thread in threads}, len(threads) > 1
    for k, line in enumerate(lines):
        statement = writer.statement(line)
        said = [f"// {line.text}" if len(line.text) < 160 else f"// {line.text[:150]} ..", *statement]
        bodies[line.thread] += [*([f"turn({k});"] if is_many else []), *said, *(["next();"] if is_many else [])]
    pointers, loads = extensions(lines)
    text = HEAD.format(title=title, pthread=" -pthread" if is_many else "", include="#include <pthread.h>\n" if is_many else "")
    text += (CONFIG if any("config(" in said for body in bodies.values() for said in body if not said.startswith("//")) else "") + (PIXELS if any(line.name == "glReadPixels" for line in lines) else "") + (TURNS if is_many else "")
    text += "\n" + pointers + "\n".join(dict.fromkeys(writer.globals)) + "\n"
    if is_many:
        for thread in threads:
            text += f"\nstatic void *thread_{thread}(void *unused) {{\n" + "".join(f"    {said}\n" for said in bodies[thread]) + "    return unused;\n}\n"
    text += "\nint main(void) {\n" + loads
    if is_many:
        text += f"    pthread_t threads[{len(threads)}];\n" + "".join(f"    pthread_create(&threads[{k}], NULL, thread_{thread}, NULL);\n" for k, thread in enumerate(threads)) + f"    for (int k = 0; k < {len(threads)}; k++) pthread_join(threads[k], NULL);\n"
    else:
        text += "".join(f"    {said}\n" for thread in threads for said in bodies[thread])
    return text + "".join(f'    puts("{said}");\n' for said in closing) + "    return 0;\n}\n"
