#define _GNU_SOURCE
#include "log.h"

#include <errno.h>
#include <signal.h>
#include <stdlib.h>
#include <string.h>
#include <sys/mman.h>
#include <unistd.h>

#include "egl_words.h"

#define MANY 65536
#define NOWHERE ((size_t)-1)

#define NAME_OF(name, number) #name,
#define NUMBER_OF(name, number) number,
const char *const word_names[] = {EGL_WORDS(NAME_OF)};
const unsigned word_numbers[] = {EGL_WORDS(NUMBER_OF)};

static int out = -1;
static int failed;
static int dying_status;
static char *buffer;
static size_t size, room;
// Where the open line begins in the buffer.
static size_t opened = NOWHERE;
static _Thread_local const char *waiting;

void log_to(int file) { out = file; }

static int write_all(const char *bytes, size_t count) {
    while (count > 0 && !failed) {
        ssize_t done = write(out, bytes, count);
        if (done < 0 && errno == EINTR) continue;
        if (done <= 0)
            failed = 1;
        else
            bytes += done, count -= (size_t)done;
    }
    return !failed;
}

static const char *head = "";
static int held, head_done;

void log_head(const char *text, int held_back) { head = text, held = held_back; }
int log_head_written(void) { return head_done; }

static void write_head(void) {
    if (!head_done) write_all(head, strlen(head));
    head_done = 1;
}

int log_flush(void) {
    size_t whole = opened == NOWHERE ? size : opened;
    if (out < 0 || whole == 0 || held) return !failed;
    write_head();
    write_all(buffer, whole);
    memmove(buffer, buffer + whole, size - whole);
    size -= whole;
    if (opened != NOWHERE) opened = 0;
    return !failed;
}

// Room for more bytes. Where memory runs out the lines that are complete are kept, and the rest is lost with the program.
static void make_room(size_t more) {
    if (room - size >= more) return;
    size_t wanted = 2 * (size + more) + MANY;
    char *larger = realloc(buffer, wanted);
    if (larger == NULL) log_cut("memory"), _exit(7);
    buffer = larger;
    room = wanted;
}

void log_bytes(const char *bytes, size_t count) {
    make_room(count);
    memcpy(buffer + size, bytes, count);
    size += count;
}

void log_text(const char *text) { log_bytes(text, strlen(text)); }

void log_unsigned(unsigned long long number) {
    char digits[24];
    size_t first = sizeof digits;
    do digits[--first] = (char)('0' + number % 10);
    while ((number /= 10) > 0);
    log_bytes(digits + first, sizeof digits - first);
}

void log_number(long long number) {
    if (number < 0) log_text("-");
    log_unsigned(number < 0 ? 0ull - (unsigned long long)number : (unsigned long long)number);
}

void log_digits(const unsigned char *bytes, size_t count) {
    static const char digits[] = "0123456789abcdef";
    if (count == 0) log_text("-");
    make_room(2 * count);
    for (size_t k = 0; k < count; k++) {
        buffer[size++] = digits[bytes[k] >> 4];
        buffer[size++] = digits[bytes[k] & 15];
    }
}

// The place of a number in a part of the list of names; -1 where it isn't there.
static int number_place(long long number, int from, int to) {
    for (int k = from; k < to; k++)
        if ((long long)word_numbers[k] == number) return k;
    return -1;
}

static void log_place(int place, long long number) {
    if (place < 0)
        log_number(number);
    else
        log_text(word_names[place]);
}

void log_egl_name(long long number) {
    int error = number_place(number, 0, PLACE_GL_NO_ERROR);
    log_place(error >= 0 ? error : number_place(number, PLACE_EGL_BUFFER_SIZE, PLACE_GL_TEXTURE_2D), number);
}

void log_gl_name(long long number) { log_place(number_place(number, PLACE_GL_TEXTURE_2D, WORDS), number); }

void log_gl_error(unsigned number) { log_place(number_place(number, PLACE_GL_NO_ERROR, PLACE_EGL_BUFFER_SIZE), number); }

int word_place(const char *word, size_t length) {
    for (int k = 0; k < WORDS; k++)
        if (strlen(word_names[k]) == length && memcmp(word_names[k], word, length) == 0) return k;
    return -1;
}

void log_open(void) { opened = size; }

void log_close(void) {
    log_bytes("\n", 1);
    opened = NOWHERE;
    if (size > MANY) log_flush();
}

char *log_take(void) {
    char *text = malloc(size - opened + 1);
    if (text == NULL) log_cut("memory"), _exit(7);
    memcpy(text, buffer + opened, size - opened);
    text[size - opened] = 0;
    size = opened;
    opened = NOWHERE;
    return text;
}

void log_waits(const char *line) { waiting = line; }

static void write_text(const char *text) { write_all(text, strlen(text)); }

// It runs in the handler of a signal too: it only writes.
void log_cut(const char *word) {
    size_t whole = opened == NOWHERE ? size : opened;
    if (out < 0) return;
    write_head();
    write_all(buffer, whole);
    if (opened != NOWHERE && waiting != NULL) write_text("# under way: ");
    if (opened != NOWHERE) write_all(buffer + opened, size - opened), write_text("\n");
    if (waiting != NULL) write_text(waiting), write_text("\n");
    // Where no call is under way, it is no call's.
    if (word != NULL && opened == NOWHERE && waiting == NULL) write_text("# ");
    if (word != NULL) write_text("crash "), write_text(word), write_text("\n");
    out = -1;
}

static const struct {
    int number;
    const char *word;
} deadly[] = {
    {SIGSEGV, "SIGSEGV"},
    {SIGBUS, "SIGBUS"},
    {SIGILL, "SIGILL"},
    {SIGFPE, "SIGFPE"},
    {SIGABRT, "SIGABRT"},
    {SIGTRAP, "SIGTRAP"},
    {SIGSYS, "SIGSYS"},
    {SIGTERM, "SIGTERM"},
    {SIGINT, "SIGINT"},
    {SIGHUP, "SIGHUP"},
    {SIGQUIT, "SIGQUIT"},
    {SIGXCPU, "SIGXCPU"},
};
#define DEADLY (sizeof deadly / sizeof *deadly)
static struct sigaction before[DEADLY];

const char *log_signal(int number) {
    for (size_t k = 0; k < DEADLY; k++)
        if (deadly[k].number == number) return deadly[k].word;
    return "signal";
}

static void on_signal(int number) {
    size_t k = 0;
    while (k < DEADLY && deadly[k].number != number) k++;
    log_cut(log_signal(number));
    if (dying_status != 0) _exit(dying_status);
    // The program's own handler, or the signal's own act.
    if (k < DEADLY) sigaction(number, &before[k], NULL);
    raise(number);
}

// A stack of its own, since the program's may be used up.
void log_in_thread(void) {
    stack_t stack = {.ss_size = 65536};
    stack.ss_sp = mmap(NULL, stack.ss_size, PROT_READ | PROT_WRITE, MAP_PRIVATE | MAP_ANONYMOUS, -1, 0);
    if (stack.ss_sp != MAP_FAILED) sigaltstack(&stack, NULL);
}

void log_on_signals(int status) {
    dying_status = status;
    log_in_thread();
    for (size_t k = 0; k < DEADLY; k++) {
        struct sigaction action = {.sa_handler = on_signal, .sa_flags = SA_ONSTACK};
        sigemptyset(&action.sa_mask);
        sigaction(deadly[k].number, &action, &before[k]);
        // A signal that the program ignores, or that nobody sends to it, stays so.
        if (before[k].sa_handler == SIG_IGN) sigaction(deadly[k].number, &before[k], NULL);
    }
}
