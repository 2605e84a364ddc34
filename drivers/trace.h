// A trace, read (docs/FORMATS.md has the form).
#ifndef TRACE_H
#define TRACE_H

#include <stddef.h>
#include <stdint.h>

struct word {
    const char *text;
    size_t length;
};

struct window {
    int64_t id, width, height;
};

struct line {
    int number;
    int thread;
    int call;
    // The variable that it assigns, -1 for none.
    int variable;
    int words;
    // The words behind the call.
    const struct word *word;
};

struct trace {
    int threads;
    // The head's lines as they stand, joined.
    int64_t video;
    int windows;
    struct window window[64];
    // What counts for the limits: pixels of windows, bytes of payloads, and bytes asked for.
    int64_t area, payloads, asked;
    int lines;
    struct line *line;
    int variables;
    struct word *variable;
};

// A number, or a part of the answer to the line that assigns a variable: its value where `place` is -1, else that place of its list.
struct item {
    int variable;
    int place;
    int64_t number;
    // Whether it is one of the names, by which a driver gets the number of the standard.
    int named;
};

extern const char *const call_names[];
extern const char *const call_forms[];

// Reads a trace. Answers NULL, or the reason of the first defect, and the number of its line.
const char *read_trace(struct trace *trace, char *text, size_t size, int *line);
// A number or a variable. Answers 0 where it is none.
int read_item(const struct trace *trace, const char *text, size_t length, struct item *item);
// The items of a list in brackets, at most so many: how many there are, -1 where it is no list of such.
int read_list(const struct trace *trace, struct word word, struct item *items, int most);
// The bytes of a payload: how many, -1 where it is none. None are written where `bytes` is NULL.
int64_t read_payload(struct word word, unsigned char *bytes, size_t room);
// The value of EGL_CONFIG_ID stands behind its name in a list of attributes; this tells the item at which a list ends.
int attributes_end(const struct item *items, int count);

#endif
