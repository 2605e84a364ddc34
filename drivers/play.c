// Plays a trace over a driver, and writes the driver's log.
#define _GNU_SOURCE
#include "play.h"

#include <errno.h>
#include <poll.h>
#include <pthread.h>
#include <signal.h>
#include <stdarg.h>
#include <stdio.h>
#include <stdlib.h>
#include <string.h>
#include <sys/wait.h>
#include <time.h>
#include <unistd.h>

#include "egl_words.h"
#include "log.h"
#include "windows.h"

enum status {
    USAGE = 2,
    READ_FAULT = 3,
    MALFORMED = 4,
    WRITE_FAULT = 5,
    NO_MEMORY = 7,
    TOO_LONG = 8,
    CUT = 10,
    NO_DRIVER = 11,
    NO_DISPLAY = 12,
    NO_CONFIG = 13
};

#define MOST_BYTES 33554432
// How long a call may take.
static long seconds = 10;
// How long a wait without an end may take before its thread counts as blocked, and how long one may take to end behind a call that could
// end it.
#define BLOCKED_MILLISECONDS 200
#define WAKE_MILLISECONDS 200

struct play play;

static _Noreturn void stop(enum status status, const char *form, ...) {
    va_list more;
    va_start(more, form);
    fputs("play: ", stderr);
    vfprintf(stderr, form, more);
    fputc('\n', stderr);
    _exit(status);
}

// ---- the threads

enum state { IDLE, CALLED, BLOCKED, RETURNED };

static struct worker {
    enum state state;
    int number;
    // The place of its next line in the trace.
    int next;
    // Whether its call may wait for others to go on.
    int waits;
    const char *skipped;
    struct request request;
    struct answer answer;
    pthread_cond_t called;
} workers[16];
static pthread_mutex_t turn = PTHREAD_MUTEX_INITIALIZER;
static pthread_cond_t returned;
static int ended;

static void log_list(const struct answer *answer) {
    log_text(" [");
    for (int k = 0; k < answer->count; k++) log_text(k == 0 ? "" : ","), log_unsigned(answer->list[k]);
    log_text("]");
}

static void log_answer(const struct answer *answer) {
    int refused = answer->error != 0 && answer->error != EGL_SUCCESS;
    log_text(" => ");
    if (!refused)
        log_text("ok");
    else if (answer->error >= EGL_SUCCESS)
        log_egl_name(answer->error);
    else
        log_gl_error(answer->error);
    if (!refused || answer->value != 0) {
        log_text(" ");
        switch (answer->how) {
        case PLAIN: log_number((long long)answer->value); break;
        case HANDLE: log_unsigned(answer->value); break;
        case EGL_NAME: answer->value == 0 ? log_text("0") : log_egl_name((long long)answer->value); break;
        case GL_NAME: log_gl_name((long long)answer->value); break;
        case GL_ERROR: log_gl_error((unsigned)answer->value); break;
        }
    }
    if (answer->count > 0 || answer->size > 0) log_list(answer);
    if (answer->size > 0) log_text(" "), log_digits(answer->bytes, answer->size);
}

// Whether a call may wait for others to go on.
static int waits(const struct request *request) {
    return request->line->call == CALL_eglClientWaitSync && (request->number[3] < 0 || request->number[3] >= (int64_t)seconds * 1000000000);
}

static void *work(void *argument) {
    struct worker *worker = argument;
    log_in_thread();
    pthread_mutex_lock(&turn);
    for (;;) {
        while (worker->state != CALLED) pthread_cond_wait(&worker->called, &turn);
        pthread_mutex_unlock(&turn);
        worker->skipped = prepare(&worker->request, &play.trace.line[worker->next]);
        if (worker->skipped == NULL) {
            pthread_mutex_lock(&turn);
            worker->waits = waits(&worker->request);
            pthread_mutex_unlock(&turn);
            if (worker->waits)
                log_waits(worker->request.text);
            else
                log_open(), log_text(worker->request.text);
            perform(&worker->request, &worker->answer);
            log_waits(NULL);
        }
        pthread_mutex_lock(&turn);
        worker->state = RETURNED;
        pthread_cond_signal(&returned);
    }
    return NULL;
}

static struct timespec in_milliseconds(long milliseconds) {
    struct timespec at;
    clock_gettime(CLOCK_MONOTONIC, &at);
    at.tv_sec += milliseconds / 1000;
    at.tv_nsec += milliseconds % 1000 * 1000000;
    if (at.tv_nsec >= 1000000000) at.tv_sec++, at.tv_nsec -= 1000000000;
    return at;
}

static void finish(int status) {
    ended = 1;
    if (!log_flush()) stop(WRITE_FAULT, "the log can't be written");
    _exit(status);
}

static _Noreturn void cut(const char *word) {
    ended = 1;
    log_cut(word);
    _exit(CUT);
}

static void on_exit_of_driver(void) {
    if (!ended) cut("exit");
}

// Ends a call that came back: the rest of its line, and what the lines behind it may use.
static void conclude(struct worker *worker) {
    const struct line *line = worker->request.line;
    struct answer *answer = &worker->answer;
    if (worker->skipped != NULL) {
        log_text("# skipped "), log_number(line->number), log_text(" "), log_text(worker->skipped), log_text("\n");
        answer->list = NULL, answer->bytes = NULL;
    } else {
        if (worker->waits) log_open(), log_text(worker->request.text);
        log_answer(answer);
        log_close();
    }
    if (line->variable >= 0) {
        struct variable *variable = &play.variables[line->variable];
        *variable = (struct variable){.known = 1, .lost = worker->skipped != NULL};
        if (worker->skipped == NULL)
            variable->value = answer->value, variable->count = answer->count, variable->list = answer->list, answer->list = NULL;
    }
    free(answer->list);
    free(answer->bytes);
    release(&worker->request);
    *answer = (struct answer){0};
    worker->state = IDLE;
}

static void advance(struct worker *worker) {
    do worker->next++;
    while (worker->next < play.trace.lines && play.trace.line[worker->next].thread != worker->number);
}

// ---- turns

static int *posts;
static int posts_count;

static int is_posted(int number) {
    for (int k = 0; k < posts_count; k++)
        if (posts[k] == number) return 1;
    return 0;
}

static int word_number(struct word word) {
    struct item item;
    return read_item(&play.trace, word.text, word.length, &item) ? (int)item.number : 0;
}

static int known(const struct item *item) { return item->variable < 0 || play.variables[item->variable].known; }

// Whether a line has all that it waits for.
static int ready(const struct line *line) {
    static struct item items[65536];
    if (line->call == CALL_await) return is_posted(word_number(line->word[0]));
    for (int k = 0; k < line->words; k++) {
        char form = call_forms[line->call][k];
        if (form == 'l') {
            int count = read_list(&play.trace, line->word[k], items, 65536);
            for (int place = 0; place < count; place++)
                if (!known(&items[place])) return 0;
        } else if ((form == 'u' || form == 'v') && read_item(&play.trace, line->word[k].text, line->word[k].length, &items[0]) &&
                   !known(&items[0]))
            return 0;
    }
    return 1;
}

static void log_front(int thread, int window) {
    const struct window *size = &play.trace.window[window];
    struct window_state *state = &play.windows[window];
    if (state->swapped && state->front == NULL) state->front = calloc((size_t)(4 * size->width * size->height), 1);
    if (state->front == NULL) return;
    if (state->swapped && !read_window(state->native, state->alpha, (int)size->width, (int)size->height, state->front)) {
        log_text("# no front "), log_number(size->id), log_text("\n");
        return;
    }
    log_text("front "), log_number(thread), log_text(" "), log_number(size->id), log_text(" ");
    log_digits(state->front, (size_t)(4 * size->width * size->height));
    log_text("\n");
}

// The lines of traces alone. A variable of theirs is lost.
static void play_own(const struct line *line) {
    if (line->call == CALL_post || line->call == CALL_await) {
        log_number(line->thread), log_text(" "), log_text(call_names[line->call]), log_text(" "), log_number(word_number(line->word[0])),
            log_text("\n");
        if (line->call == CALL_post) posts[posts_count++] = word_number(line->word[0]);
    }
    if (line->call == CALL_readFront)
        for (int k = 0; k < play.trace.windows; k++)
            if (play.trace.window[k].id == word_number(line->word[0])) log_front(line->thread, k);
    if (line->call == CALL_readBuffer) log_text("# skipped "), log_number(line->number), log_text(" call\n");
    if (line->variable >= 0) play.variables[line->variable] = (struct variable){.known = 1, .lost = 1};
}

// Whether the waits of other threads may end behind a call.
static int wakes(int call) {
    switch (call) {
    case CALL_glFlush:
    case CALL_glFinish:
    case CALL_eglWaitClient:
    case CALL_eglSwapBuffers:
    case CALL_eglMakeCurrent:
    case CALL_eglReleaseThread:
    case CALL_eglTerminate:
    case CALL_eglClientWaitSync:
    case CALL_eglWaitSync:
    case CALL_eglDestroySync:
    case CALL_eglDestroyContext:
    case CALL_eglCreateSync: return 1;
    default: return 0;
    }
}

static int blocked(void) {
    int count = 0;
    for (int k = 0; k < play.trace.threads; k++) count += workers[k].state == BLOCKED;
    return count;
}

// Ends the waits that came back, the lowest thread's first.
static int conclude_waits(void) {
    int count = 0;
    for (int k = 0; k < play.trace.threads; k++)
        if (workers[k].state == RETURNED) conclude(&workers[k]), advance(&workers[k]), count++;
    return count;
}

// Waits so long for a wait to come back. The turn's lock is held.
static int await_return(long milliseconds) {
    struct timespec until = in_milliseconds(milliseconds);
    for (;;) {
        for (int k = 0; k < play.trace.threads; k++)
            if (workers[k].state == RETURNED) return 1;
        if (pthread_cond_timedwait(&returned, &turn, &until) != 0) return 0;
    }
}

// Plays the next line of a thread.
static void play_line(struct worker *worker) {
    const struct line *line = &play.trace.line[worker->next];
    if (line->call >= DRIVER_CALLS) {
        play_own(line);
        advance(worker);
        return;
    }
    int waited = 0, once = line->call == CALL_eglClientWaitSync ? BLOCKED_MILLISECONDS : (int)seconds * 1000;
    worker->state = CALLED;
    worker->waits = 0;
    pthread_cond_signal(&worker->called);
    for (struct timespec until = in_milliseconds(once); worker->state != RETURNED;) {
        int late = pthread_cond_timedwait(&returned, &turn, &until) == ETIMEDOUT;
        if (!late || worker->state == RETURNED) continue;
        if (worker->waits) {
            worker->state = BLOCKED;
            return;
        }
        if ((waited += once) >= seconds * 1000) cut("hang");
        until = in_milliseconds(once);
    }
    conclude(worker);
    advance(worker);
}

static struct worker *next_worker(void) {
    for (int k = 0; k < play.trace.threads; k++)
        if (workers[k].state == IDLE && workers[k].next < play.trace.lines && ready(&play.trace.line[workers[k].next])) return &workers[k];
    return NULL;
}

// The end: what windows show, and which threads wait for what never comes. A wait at the driver is the open line.
static void play_end(void) {
    int open = -1;
    for (int k = 0; k < play.trace.windows; k++) log_front(0, k);
    for (int k = 0; k < play.trace.threads; k++) {
        if (workers[k].next >= play.trace.lines) continue;
        log_text("# stalled "), log_number(k), log_text(" "), log_number(play.trace.line[workers[k].next].number), log_text("\n");
        if (open < 0 && workers[k].state == BLOCKED) open = k;
    }
    if (open >= 0) log_text(workers[open].request.text), log_text("\n");
}

static void play_all(void) {
    pthread_mutex_lock(&turn);
    for (;;) {
        conclude_waits();
        struct worker *worker = next_worker();
        if (worker != NULL) {
            int call = play.trace.line[worker->next].call;
            play_line(worker);
            if (wakes(call) && blocked() > (worker->state == BLOCKED)) await_return(WAKE_MILLISECONDS);
        } else if (blocked() == 0 || !await_return(seconds * 1000))
            break;
    }
    play_end();
}

static void begin_threads(void *(*act)(void *)) {
    pthread_condattr_t clock;
    pthread_condattr_init(&clock);
    pthread_condattr_setclock(&clock, CLOCK_MONOTONIC);
    pthread_cond_init(&returned, &clock);
    for (int k = 0; k < play.trace.threads; k++) {
        pthread_t thread;
        workers[k].number = k, workers[k].next = -1;
        play.players[k].egl_error = EGL_SUCCESS;
        advance(&workers[k]);
        pthread_cond_init(&workers[k].called, &clock);
        if (pthread_create(&thread, NULL, act, &workers[k]) != 0) stop(NO_MEMORY, "a thread can't be made");
    }
}

// ---- threads that run free

// What a thread lets pass before a call, so that runs aren't all alike.
static void dawdle(unsigned *random) {
    *random ^= *random << 13, *random ^= *random >> 17, *random ^= *random << 5;
    for (volatile unsigned left = *random & ((1u << (*random >> 28)) - 1); left > 0; left--) continue;
}

// The lines of a thread, each as soon as it has all that it waits for; only what stands around a call is done by turns.
static _Noreturn void *work_free(void *argument) {
    struct worker *worker = argument;
    unsigned random = (unsigned)(worker->number + 1) * 2654435761u ^ (unsigned)getpid() * 40503u;
    pthread_mutex_lock(&turn);
    for (; worker->next < play.trace.lines; advance(worker)) {
        const struct line *line = &play.trace.line[worker->next];
        while (!ready(line)) pthread_cond_wait(&returned, &turn);
        if (line->call >= DRIVER_CALLS)
            play_own(line);
        else {
            worker->skipped = prepare(&worker->request, line);
            worker->waits = 1;
            pthread_mutex_unlock(&turn);
            dawdle(&random);
            if (worker->skipped == NULL) perform(&worker->request, &worker->answer);
            pthread_mutex_lock(&turn);
            conclude(worker);
        }
        pthread_cond_broadcast(&returned);
    }
    ended++;
    pthread_cond_broadcast(&returned);
    // A thread that is over would take along what a driver keeps of it, and no line says so.
    for (;;) pthread_cond_wait(&returned, &turn);
}

// Plays the trace once: the lines stand in the order in which they were done. Where threads don't come to their ends, those that are left
// are told.
static void play_free(int run) {
    log_text("# run "), log_number(run), log_text("\n");
    if (open_windows()) usual_surfaces |= EGL_WINDOW_BIT;
    pthread_mutex_lock(&turn);
    begin_threads(work_free);
    for (struct timespec until = in_milliseconds(seconds * 1000); ended < play.trace.threads;)
        if (pthread_cond_timedwait(&returned, &turn, &until) != 0) break;
    for (int k = 0; k < play.trace.threads; k++)
        if (workers[k].next < play.trace.lines)
            log_text("# stalled "), log_number(k), log_text(" "), log_number(play.trace.line[workers[k].next].number), log_text("\n");
    finish(0);
}

// Plays the trace so many times, each in a process of its own. Of one that dies the crash is all that is told.
static void play_runs(int runs) {
    play.is_free = 1;
    // The driver's own libraries are there from here on; what it opens later isn't opened in each run.
    void *display = play.calls.eglGetDisplay(NULL);
    if (play.calls.eglInitialize(display, NULL, NULL)) play.calls.eglTerminate(display);
    for (int run = 1; run <= runs; run++) {
        int status = 0;
        if (!log_flush()) stop(WRITE_FAULT, "the log can't be written");
        pid_t child = fork();
        if (child < 0) stop(NO_MEMORY, "a process can't be made");
        if (child == 0) play_free(run);
        waitpid(child, &status, 0);
        if (WIFEXITED(status) && WEXITSTATUS(status) == 0) continue;
        log_text("# run "), log_number(run), log_text("\ncrash ");
        log_text(WIFSIGNALED(status) ? log_signal(WTERMSIG(status)) : "exit"), log_text("\n");
    }
}

// ---- what stands before the body

static char *read_input(size_t *size) {
    char *text = malloc(MOST_BYTES + 1);
    if (text == NULL) stop(NO_MEMORY, "memory ran out");
    for (*size = 0; *size <= MOST_BYTES;) {
        ssize_t count = read(0, text + *size, MOST_BYTES + 1 - *size);
        if (count < 0 && errno == EINTR) continue;
        if (count < 0 && errno == EAGAIN) {
            poll(&(struct pollfd){.fd = 0, .events = POLLIN}, 1, -1);
            continue;
        }
        if (count < 0) stop(READ_FAULT, "the trace can't be read");
        if (count == 0) return text;
        *size += (size_t)count;
    }
    stop(TOO_LONG, "the trace is too long");
}

struct told {
    int status, count;
    char said[256];
    struct config configs[MOST_CONFIGS];
};

static void send(int to, const void *bytes, size_t size) {
    for (ssize_t count = 1; size > 0 && count > 0; size -= (size_t)count, bytes = (const char *)bytes + count) {
        count = write(to, bytes, size);
        if (count < 0) return;
    }
}

static size_t receive(int from, void *bytes, size_t size) {
    size_t done = 0;
    for (ssize_t count = 1; done < size && count > 0;) {
        count = read(from, (char *)bytes + done, size - done);
        if (count > 0) done += (size_t)count;
    }
    return done;
}

// What the driver calls itself. It is asked for by a context of its own.
static void name_driver(void *display, void *config, char *name, size_t room) {
    const char *(*query)(void *, int);
    const unsigned char *(*get)(unsigned);
    memcpy(&query, &(void *){driver_call("eglQueryString")}, sizeof query);
    memcpy(&get, &(void *){driver_call("glGetString")}, sizeof get);
    void *surface = play.calls.eglCreatePbufferSurface(display, config, (int[]){EGL_WIDTH, 1, EGL_HEIGHT, 1, EGL_NONE});
    void *context = play.calls.eglCreateContext(display, config, NULL, (int[]){EGL_NONE});
    if (query == NULL || get == NULL || !play.calls.eglMakeCurrent(display, surface, surface, context)) return;
    const char *said[4] = {query(display, 0x3053), query(display, 0x3054), (const char *)get(0x1F01), (const char *)get(0x1F02)};
    for (int k = 0; k < 4; k++)
        if (said[k] != NULL) snprintf(name + strlen(name), room - strlen(name), "%s%s", k == 0 ? "" : ", ", said[k]);
    for (; *name != 0; name++)
        if (*name < ' ') *name = ' ';
}

static _Noreturn void ask_here(int to, const char *egl, const char *gles) {
    static struct told told;
    static void *handles[MOST_CONFIGS];
    static char name[512];
    int place = 0;
    alarm((unsigned)seconds);
    if (open_windows()) usual_surfaces |= EGL_WINDOW_BIT;
    const char *fault = open_driver(&play.calls, egl, gles);
    void *display = fault == NULL ? play.calls.eglGetDisplay(native_display()) : NULL;
    if (fault != NULL)
        told.status = NO_DRIVER, snprintf(told.said, sizeof told.said, "%s", fault);
    else if (display == NULL || !play.calls.eglInitialize(display, NULL, NULL)) {
        told.status = NO_DISPLAY;
        snprintf(told.said, sizeof told.said,
            display == NULL ? "the driver has no display (error %#x)" : "the display doesn't initialise (error %#x)",
            (unsigned)play.calls.eglGetError());
    } else
        told.count = list_configs(&play.calls, display, told.configs, handles);
    send(to, &told, sizeof told);
    while (place < told.count && !told.configs[place].usual) place++;
    if (place < told.count) name_driver(display, handles[place], name, sizeof name), send(to, name, sizeof name);
    _exit(0);
}

static char driver_name[512];

// Asks the driver for its configs and its name in a process of its own, so that the trace meets a driver that nobody has used.
static void ask_driver(const char *egl, const char *gles) {
    static struct told told;
    int pipes[2], status = 0, ours = 0;
    if (pipe(pipes) != 0) stop(NO_MEMORY, "a pipe can't be made");
    pid_t child = fork();
    if (child < 0) stop(NO_MEMORY, "a process can't be made");
    if (child == 0) ask_here(pipes[1], egl, gles);
    close(pipes[1]);
    size_t done = receive(pipes[0], &told, sizeof told);
    if (receive(pipes[0], driver_name, sizeof driver_name) < sizeof driver_name) *driver_name = 0;
    close(pipes[0]);
    waitpid(child, &status, 0);
    if (done < sizeof told)
        stop(CUT, WIFSIGNALED(status) && WTERMSIG(status) == SIGALRM ? "the driver hung before the first line"
                                                                     : "the driver died before the first line");
    if (told.status != 0) stop(told.status, "%s", told.said);
    for (int k = 1; k <= 8; k++) ours += config_for(told.configs, told.count, k) >= 0;
    if (ours == 0) stop(NO_CONFIG, "the driver has none of the configs");
    memcpy(play.configs, told.configs, sizeof play.configs);
    play.configs_count = told.count;
}

static void write_head(void) {
    log_text("egl-log 1 "), log_number(play.trace.threads), log_text("\n");
    if (*driver_name != 0) log_text("# driver "), log_text(driver_name), log_text("\n");
    if (play.trace.video >= 0) log_text("video "), log_number(play.trace.video), log_text("\n");
    for (int k = 0; k < play.trace.windows; k++) {
        const struct window *window = &play.trace.window[k];
        log_text("window "), log_number(window->id), log_text(" "), log_number(window->width), log_text(" "), log_number(window->height),
            log_text("\n");
    }
    log_configs(play.configs, play.configs_count);
}

static const char *option(int *argc, char ***argv, const char *name, const char *variable, const char *otherwise) {
    const char *value = getenv(variable);
    if (*argc >= 2 && strcmp(**argv, name) == 0) value = (*argv)[1], *argc -= 2, *argv += 2;
    return value != NULL && *value != 0 ? value : otherwise;
}

int main(int argc, char **argv) {
    size_t size;
    int line;
    argc--, argv++;
    const char *egl = option(&argc, &argv, "--egl", "EGL_LIBRARY", "libEGL.so.1");
    const char *gles = option(&argc, &argv, "--gles", "GLES_LIBRARY", "libGLESv1_CM.so.1");
    const char *patience = option(&argc, &argv, "--seconds", "PLAY_SECONDS", "10");
    seconds = atol(patience);
    int runs = atoi(option(&argc, &argv, "--free", "PLAY_FREE", "0"));
    play.asks_colour = strcmp(option(&argc, &argv, "--cure", "PLAY_CURE", ""), "colour") == 0;
    if (argc != 0 || seconds < 1 || seconds > 86400 || runs < 0)
        stop(USAGE, "usage: play [--egl PATH] [--gles PATH] [--seconds N] [--free RUNS] [--cure colour] < TRACE > LOG");
    char *text = read_input(&size);
    const char *reason = read_trace(&play.trace, text, size, &line);
    if (reason != NULL && line == 0) stop(NO_MEMORY, "memory ran out");
    if (reason != NULL) stop(MALFORMED, "malformed %d %s", line, reason);
    play.variables = calloc((size_t)play.trace.variables + 1, sizeof *play.variables);
    posts = calloc((size_t)play.trace.lines + 1, sizeof *posts);
    if (play.variables == NULL || posts == NULL) stop(NO_MEMORY, "memory ran out");
    // What the driver prints isn't the log.
    int log = dup(1);
    dup2(2, 1);
    signal(SIGPIPE, SIG_IGN);
    ask_driver(egl, gles);
    log_to(log);
    write_head();
    if (runs == 0) log_on_signals(CUT), atexit(on_exit_of_driver);
    // A server's connection is a process's own.
    if (runs == 0 && open_windows()) usual_surfaces |= EGL_WINDOW_BIT;
    const char *fault = open_driver(&play.calls, egl, gles);
    if (fault != NULL) stop(NO_DRIVER, "%s", fault);
    if (runs > 0)
        play_runs(runs);
    else
        begin_threads(work), play_all();
    finish(0);
}
