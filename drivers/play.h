// What the threads of `play` share.
#ifndef PLAY_H
#define PLAY_H

#include <stdint.h>

#include "calls.h"
#include "driver.h"
#include "trace.h"

// How a number of an answer is written.
enum how { PLAIN, HANDLE, EGL_NAME, GL_NAME, GL_ERROR };

struct answer {
    unsigned error;
    uint64_t value;
    enum how how;
    int count;
    uint64_t *list;
    unsigned char *bytes;
    size_t size;
};

// What the lines behind the one that assigns it may use.
struct variable {
    int known, lost;
    uint64_t value;
    int count;
    uint64_t *list;
};

// A window of the trace: the platform's, or a pbuffer in its place.
struct window_state {
    void *display, *surface;
    int valid;
    // The pixels at its last swap; a window of the platform is asked for them.
    unsigned char *front;
    unsigned long native;
    int visual, alpha, swapped, taken;
};

struct player {
    void *context, *draw, *read;
    int egl_error;
};

struct play {
    struct trace trace;
    struct calls calls;
    struct config configs[MOST_CONFIGS];
    int configs_count;
    // Whether threads take no turns.
    int is_free;
    // Whether the current colour is asked for in front of each draw, which makes Mesa look whether it is new.
    int asks_colour;
    struct variable *variables;
    struct window_state windows[64];
    struct player players[16];
};
extern struct play play;

// A line with its arguments as the driver gets them.
struct request {
    const struct line *line;
    int64_t number[10];
    void *config;
    int count;
    struct item *items;
    int *list;
    intptr_t *wide;
    unsigned char *bytes;
    // The line as the log has it, without its end.
    char *text;
};

// Makes a line ready. Answers NULL, or why it isn't played.
const char *prepare(struct request *request, const struct line *line);
void release(struct request *request);
// Whether a window has a surface: one that has its handle, or is current to a thread.
int window_in_use(const struct window_state *window);
// Makes the call.
void perform(const struct request *request, struct answer *answer);

#endif
