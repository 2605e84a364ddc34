// Records the calls that a program makes to EGL and OpenGL ES 1.1, in front of the libraries that it would use else.
#define _GNU_SOURCE
#include "record.h"

#include <dlfcn.h>
#include <errno.h>
#include <fcntl.h>
#include <pthread.h>
#include <stdio.h>
#include <stdlib.h>
#include <string.h>
#include <sys/syscall.h>
#include <time.h>
#include <unistd.h>

#include "egl_words.h"
#include "log.h"

struct calls real;
struct more more;
_Thread_local struct thread me = {.number = -1, .egl_error = EGL_SUCCESS};

static pthread_once_t once = PTHREAD_ONCE_INIT;
static pthread_mutex_t lock = PTHREAD_MUTEX_INITIALIZER;
static _Thread_local int within;
static int recording, threads, ending, log_file = -1;
static pid_t recorded;

// ---- the head: its first lines are written again as threads and windows come

#define WINDOWS_ROOM 1856
static char *head;
static struct { int id, width, height; } windows[64];
static int windows_count;

// As many bytes whatever stands in them: an empty line behind a short header, and a comment behind the windows.
static size_t write_first_lines(char *to) {
    size_t size = (size_t)sprintf(to, "egl-log 1 %d\n", threads > 0 ? threads : 1), from;
    if (threads < 10) to[size++] = '\n';
    from = size;
    for (int k = 0; k < windows_count; k++)
        size += (size_t)sprintf(to + size, "window %d %d %d\n", windows[k].id, windows[k].width, windows[k].height);
    to[size++] = '#';
    while (size < from + WINDOWS_ROOM - 1) to[size++] = ' ';
    to[size++] = '\n';
    return size;
}

static void renew_head(void) {
    size_t size = write_first_lines(head);
    if (log_head_written() && pwrite(log_file, head, size, 0) < 0) return;
}

void know_window(int id, int width, int height) {
    for (int k = 0; k < windows_count; k++)
        if (windows[k].id == id) return;
    if (windows_count == 64) return;
    windows[windows_count].id = id, windows[windows_count].width = width, windows[windows_count++].height = height;
    renew_head();
}

void know_display(void *display) {
    static int known;
    static struct config configs[MOST_CONFIGS];
    static void *handles[MOST_CONFIGS];
    if (known) return;
    int count = list_configs(&real, display, configs, handles);
    if (count == 0) return;
    know_configs(display, handles, count);
    size_t size = write_first_lines(head);
    for (int usual = 1; usual >= 0; usual--)
        for (int k = 0; k < count; k++) {
            const int *sizes = configs[k].sizes;
            if (configs[k].usual == usual)
                size += (size_t)sprintf(head + size, "config %lld %d %d %d %d %d %d\n", (long long)configs[k].id, sizes[0], sizes[1],
                    sizes[2], sizes[3], sizes[4], sizes[5]);
        }
    head[size] = 0;
    known = 1;
    log_head(head, 0);
}

// ---- begin and end

static _Noreturn void give_up(int status, const char *what, const char *why) {
    fprintf(stderr, "record: %s: %s\n", what, why);
    syscall(SYS_exit_group, status);
    __builtin_unreachable();
}

// The lines so far; and what comes behind is written line by line, since nobody knows which is the last.
static void at_end(void) {
    struct timespec soon;
    if (getpid() != recorded) return;
    // The driver itself ends the program, or a call of another thread doesn't come back.
    if (within) {
        log_cut("exit");
        return;
    }
    clock_gettime(CLOCK_REALTIME, &soon);
    soon.tv_sec++;
    if (pthread_mutex_timedlock(&lock, &soon) != 0) {
        log_cut(NULL);
        return;
    }
    ending = 1;
    log_head(head, 0);
    if (recording && !log_flush()) fprintf(stderr, "record: the log can't be written\n"), recording = 0;
    pthread_mutex_unlock(&lock);
}

static void in_child(void) { recording = 0, log_to(-1); }

static void open_log(void) {
    const char *path = getenv("EGL_LOG");
    if (path == NULL || *path == 0) path = "egl.log";
    log_file = open(path, O_RDWR | O_CREAT | O_TRUNC | O_CLOEXEC, 0666);
    if (log_file < 0) give_up(5, path, strerror(errno));
    if (lseek(log_file, 0, SEEK_END) < 0) give_up(5, path, "the log isn't a file that can be written again");
    head = calloc(WINDOWS_ROOM + 64 + 64 * MOST_CONFIGS, 1);
    if (head == NULL) give_up(7, path, "memory ran out");
    write_first_lines(head);
    log_head(head, 1);
    log_to(log_file);
}

static const char *named(const char *variable, const char *otherwise) {
    const char *path = getenv(variable);
    return path != NULL && *path != 0 ? path : otherwise;
}

// ---- programs that open the libraries by name

static void *(*real_dlopen)(const char *, int);

static void find_dlopen(void) {
    if (real_dlopen == NULL) memcpy(&real_dlopen, &(void *){dlsym(RTLD_NEXT, "dlopen")}, sizeof real_dlopen);
}

// Whether a path is that of a library whose calls stand here.
static int is_recorded(const char *path) {
    static const char *const names[] = {"libEGL.so", "libEGL.so.1", "libGLESv1_CM.so", "libGLESv1_CM.so.1"};
    const char *slash = strrchr(path, '/');
    for (size_t k = 0; k < sizeof names / sizeof *names; k++)
        if (strcmp(slash != NULL ? slash + 1 : path, names[k]) == 0) return 1;
    return 0;
}

static const char *own_path(void) {
    static Dl_info here;
    return dladdr(&lock, &here) != 0 ? here.dli_fname : NULL;
}

// A program that opens one of the libraries gets this one. All else is opened as its caller would: the last act is a jump, so dlopen sees
// who called.
void *dlopen(const char *path, int flags) {
    find_dlopen();
    if (path != NULL && !within && is_recorded(path)) path = own_path();
    return real_dlopen(path, flags);
}

static void begin_recording(void) {
    const char *egl = named("EGL_LIBRARY", "libEGL.so.1"), *gles = named("GLES_LIBRARY", "libGLESv1_CM.so.1");
    within = 1;
    // Where this library has their names, it is to be found by these in front of the real ones.
    dlopen("libEGL.so.1", RTLD_LAZY), dlopen("libGLESv1_CM.so.1", RTLD_LAZY);
    const char *fault = open_driver(&real, egl, gles);
    if (fault != NULL) give_up(11, "no driver", fault);
    if ((void *)real.eglGetError == own_call("eglGetError"))
        give_up(11, egl, "this is the recorder itself; EGL_LIBRARY and GLES_LIBRARY name the real ones");
    find_calls();
    open_log();
    recorded = getpid();
    recording = 1;
    log_on_signals(0);
    atexit(at_end);
    at_quick_exit(at_end);
    pthread_atfork(NULL, NULL, in_child);
    within = 0;
}

__attribute__((destructor)) static void at_unload(void) {
    if (recording) at_end();
}

// A program that ends so runs nothing of what `atexit` was told.
void _exit(int status) {
    if (recording) at_end();
    syscall(SYS_exit_group, status);
    __builtin_unreachable();
}
void _Exit(int status) { _exit(status); }

int enter(void) {
    if (within) return 0;
    pthread_once(&once, begin_recording);
    if (!recording) return 0;
    pthread_mutex_lock(&lock);
    if (me.number < 0) {
        me.number = threads < 16 ? threads : 16;
        if (threads < 16)
            threads++, renew_head();
        else
            log_text("# outside thread\n");
        log_in_thread();
    }
    if (me.number == 16) {
        pthread_mutex_unlock(&lock);
        return 0;
    }
    within = 1;
    return 1;
}

void leave_written(void) {
    log_flush();
    leave();
}

void leave(void) {
    if (ending) log_flush();
    within = 0;
    pthread_mutex_unlock(&lock);
}

// ---- what stands for handles and names

struct key {
    uint64_t number;
    int space;
};
static struct known {
    struct key key;
    char letter;
    int variable, place, used;
    uint64_t value;
} * table;
static size_t table_room, table_count;

static struct known *slot(struct key key) {
    size_t hash = (key.number ^ (uint64_t)key.space << 40) * 0x9E3779B97F4A7C15u;
    for (hash >>= 20;; hash++) {
        struct known *known = &table[hash % table_room];
        if (!known->used || (known->key.number == key.number && known->key.space == key.space)) return known;
    }
}

static struct known *find_known(int space, uint64_t number) {
    if (table_room == 0) return NULL;
    struct known *known = slot((struct key){number, space});
    return known->used ? known : NULL;
}

static struct known *know(int space, uint64_t number) {
    if (2 * table_count >= table_room) {
        struct known *old = table;
        size_t room = table_room;
        table_room = 2 * table_room + 256;
        table = calloc(table_room, sizeof *table);
        if (table == NULL) log_cut("memory"), give_up(7, "recording", "memory ran out");
        for (size_t k = 0; k < room; k++)
            if (old[k].used) *slot(old[k].key) = old[k];
        free(old);
    }
    struct known *known = slot((struct key){number, space});
    if (!known->used) table_count++;
    *known = (struct known){.key = {number, space}, .used = 1, .place = -1};
    return known;
}

static int variables, making;
static char making_letter;

static int name_space(enum space space) { return (me.context == NULL ? 0 : me.context->group * SPACES) + (int)space; }

void know_handle(enum space space, void *handle) {
    struct known *known = know((int)space, (uint64_t)(uintptr_t)handle);
    known->letter = making_letter, known->variable = making;
}

void know_names(enum space space, int count, const unsigned *names) {
    for (int k = 0; k < count; k++) {
        struct known *known = know(name_space(space), names[k]);
        known->letter = making_letter, known->variable = making, known->place = k;
    }
}

void know_configs(void *display, void **configs, int count) {
    for (int k = 0; k < count; k++) {
        int id = 0;
        if (find_known(CONFIG, (uint64_t)(uintptr_t)configs[k]) != NULL) continue;
        if (real.eglGetConfigAttrib(display, configs[k], EGL_CONFIG_ID, &id))
            know(CONFIG, (uint64_t)(uintptr_t)configs[k])->value = (uint64_t)id;
    }
}

// The place of each config in the list that a line answers is its name from there on.
void know_listed(void **configs, int count) {
    for (int k = 0; k < count; k++) {
        struct known *known = find_known(CONFIG, (uint64_t)(uintptr_t)configs[k]);
        if (known != NULL) known->letter = making_letter, known->variable = making, known->place = k;
    }
}

// A number of its own for each window and each display, in the order in which they come.
static int counted(enum space space, void *handle, int *count) {
    struct known *known = find_known((int)space + SPACES * 1000000, (uint64_t)(uintptr_t)handle);
    if (known == NULL) known = know((int)space + SPACES * 1000000, (uint64_t)(uintptr_t)handle), known->value = (uint64_t)++ * count;
    return (int)known->value;
}

int window_id(void *window) {
    static int count;
    return window == NULL ? 0 : counted(WINDOW, window, &count);
}

int display_id(void *display) {
    static int count;
    return display == NULL ? 7 : counted(DISPLAY, display, &count) - 1;
}

// ---- contexts

static struct context **contexts;
static int contexts_count, groups;

static struct context *context_of(void *handle) {
    for (int k = contexts_count - 1; k >= 0; k--)
        if (contexts[k]->handle == handle) return contexts[k];
    return NULL;
}

void know_context(void *handle, void *share) {
    const struct context *shared = share == NULL ? NULL : context_of(share);
    struct context *context = calloc(1, sizeof *context), **longer = realloc(contexts, ((size_t)contexts_count + 1) * sizeof *contexts);
    if (context == NULL || longer == NULL) log_cut("memory"), give_up(7, "recording", "memory ran out");
    *context = (struct context){.handle = handle, .group = shared != NULL ? shared->group : ++groups};
    contexts = longer;
    contexts[contexts_count++] = context;
}

void know_current(void *handle) {
    if (handle != NULL && context_of(handle) == NULL) know_context(handle, NULL);
    me.context = handle == NULL ? NULL : context_of(handle);
}

// ---- lines

static int is_inexact;
void inexact(void) { is_inexact = 1; }

static void open_line(void) {
    if (is_inexact) log_text("# inexact\n");
    is_inexact = 0;
    log_open();
}

void begin(const char *name) {
    open_line();
    log_number(me.number), log_text(" "), log_text(name);
}

void begin_making(const char *name, char letter) {
    open_line();
    making = ++variables, making_letter = letter;
    log_number(me.number), log_text(" $"), log_bytes(&letter, 1), log_number(making), log_text(" = "), log_text(name);
}

static void put_known(const struct known *known) {
    log_text("$"), log_bytes(&known->letter, 1), log_number(known->variable);
    if (known->place >= 0) log_text("."), log_number(known->place);
}

// One that isn't known is none that the driver gave, and becomes a number that is no handle.
void put_handle(enum space space, void *handle) {
    const struct known *known = handle == NULL ? NULL : find_known((int)space, (uint64_t)(uintptr_t)handle);
    log_text(" ");
    if (known != NULL)
        put_known(known);
    else
        log_text(handle == NULL ? "0" : "4294967295");
}

// One that no list had has its ID.
void put_config(void *config) {
    const struct known *known = find_known(CONFIG, (uint64_t)(uintptr_t)config);
    log_text(" ");
    if (known != NULL && known->place >= 0)
        put_known(known);
    else if (known != NULL)
        log_unsigned(known->value);
    else
        log_text(config == NULL ? "0" : "4294967295");
}

void put_name(enum space space, unsigned name) {
    const struct known *known = name == 0 ? NULL : find_known(name_space(space), name);
    log_text(" ");
    if (known != NULL)
        put_known(known);
    else
        log_unsigned(name);
}

void put_number(long long number) { log_text(" "), log_number(number); }
void put_egl(long long number) { log_text(" "), log_egl_name(number); }
void put_gl(long long number) { log_text(" "), log_gl_name(number); }

static int value_is_named(long long name) {
    return name == EGL_CONFIG_CAVEAT || name == EGL_COLOR_BUFFER_TYPE || name == EGL_TRANSPARENT_TYPE || name == EGL_RENDER_BUFFER ||
           name == EGL_NATIVE_VISUAL_TYPE;
}

static void put_pair(int place, long long name, long long value) {
    log_text(place == 0 ? "" : ","), log_egl_name(name), log_text(",");
    if (value_is_named(name))
        log_egl_name(value);
    else if (name == EGL_SURFACE_TYPE && value > 0)
        log_number((value & ~(long long)EGL_SWAP_BEHAVIOR_PRESERVED_BIT) | (value & EGL_SWAP_BEHAVIOR_PRESERVED_BIT ? 8 : 0));
    else
        log_number((int)value);
}

// A driver reads a list up to the first name that it doesn't know, and nothing says that there is an end behind it.
static int goes_on(int place, long long name) { return name >= 0x3000 && name < 0x4000 && place < 512; }

void put_attributes(const intptr_t *list) {
    log_text(" [");
    for (int k = 0; list != NULL && list[k] != EGL_NONE; k += 2) {
        put_pair(k, list[k], list[k + 1]);
        if (!goes_on(k, list[k])) break;
    }
    log_text("]");
}

void put_narrow_attributes(const int *list) {
    log_text(" [");
    for (int k = 0; list != NULL && list[k] != EGL_NONE; k += 2) {
        put_pair(k, list[k], list[k + 1]);
        if (!goes_on(k, list[k])) break;
    }
    log_text("]");
}

void put_names(enum space space, int count, const unsigned *names) {
    log_text(" [");
    for (int k = 0; k < count && names != NULL; k++) {
        const struct known *known = names[k] == 0 ? NULL : find_known(name_space(space), names[k]);
        log_text(k == 0 ? "" : ",");
        if (known != NULL)
            put_known(known);
        else
            log_unsigned(names[k]);
    }
    log_text("]");
}

// The same few bytes again and again are written once.
void put_bytes(const void *bytes, size_t size) {
    const char *from = bytes;
    log_text(" ");
    if (bytes == NULL || size == 0) {
        log_text("-");
        return;
    }
    for (size_t unit = 1; unit <= 8; unit *= 2)
        if (size > 2 * unit && size % unit == 0 && memcmp(from, from + unit, size - unit) == 0) {
            log_text("*"), log_unsigned(size / unit), log_text(":");
            log_digits(bytes, unit);
            return;
        }
    log_text("#");
    log_digits(bytes, size);
}

int fixed(float number) {
    double wide = (double)number * 65536;
    int clipped = wide >= 2147483647.0 ? INT32_MAX : wide <= -2147483648.0 ? INT32_MIN : wide != wide ? 0 : (int)wide;
    if ((double)clipped != wide) is_inexact = 1;
    return clipped;
}

int end_egl(void) {
    int error = real.eglGetError();
    me.egl_error = error, me.egl_outside = 0;
    log_text(" => ");
    if (error == EGL_SUCCESS) return log_text("ok "), 1;
    log_egl_name(error);
    return 0;
}

// The first error behind a call; the context keeps the first that nobody asked for.
static unsigned gl_error(int from_outside) {
    unsigned first = 0, next = 1;
    if (me.context == NULL) return 0;
    for (int k = 0; k < 8 && next != 0; k++) {
        next = real.glGetError();
        if (first == 0) first = next;
    }
    if (first != 0 && me.context->error == 0) me.context->error = first, me.context->outside = from_outside;
    return first;
}

int end_gl(void) {
    unsigned error = gl_error(0);
    log_text(" => ");
    if (error == 0) return log_text("ok "), 1;
    log_gl_error(error);
    return 0;
}

void end_value(long long value) { log_number(value), close_line(); }
void end_handle(void *handle) { log_unsigned((uint64_t)(uintptr_t)handle), close_line(); }

void close_line(void) { log_close(); }

// A call that has no line: a comment, and what it leaves as an error.
void outside(const char *name) {
    log_text("# outside "), log_text(name), log_text("\n");
    if (strncmp(name, "egl", 3) == 0)
        me.egl_error = real.eglGetError(), me.egl_outside = 1;
    else
        gl_error(1);
}
