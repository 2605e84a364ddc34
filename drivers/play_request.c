// A line of a trace becomes a call's arguments, and a line of the log.
#include <stdio.h>
#include <stdlib.h>
#include <string.h>

#include "egl_words.h"
#include "log.h"
#include "play.h"
#include "windows.h"

// The configs that the driver gave for a display, with their handles.
static struct config here[MOST_CONFIGS];
static void *handles[MOST_CONFIGS];

static void *config_handle(void *display, int64_t id) {
    int count = list_configs(&play.calls, display, here, handles);
    for (int k = 0; k < count; k++)
        if (here[k].id == id) return handles[k];
    return NULL;
}

// The number that the driver gets: names by the standard, parts of answers as they came.
static int64_t number_of(const struct item *item) {
    if (item->variable < 0) return item->named ? (int64_t)word_numbers[item->number - FIRST_CODE] : item->number;
    const struct variable *variable = &play.variables[item->variable];
    if (item->place < 0) return (int64_t)variable->value;
    return item->place < variable->count ? (int64_t)variable->list[item->place] : 0;
}

static int lost(const struct item *item) { return item->variable >= 0 && play.variables[item->variable].lost; }

// The bits of a mask are this project's own; those that are none become one that is none of the standard's.
static int64_t clear_mask(int64_t ours) {
    return (ours & 1 ? GL_COLOR_BUFFER_BIT : 0) | (ours & 2 ? GL_DEPTH_BUFFER_BIT : 0) | (ours & 4 ? GL_STENCIL_BUFFER_BIT : 0) |
           ((ours & ~7) != 0 ? 1 : 0);
}

// Whether the number is one that the call's parameter can have in C.
static int in_c(char form, int64_t number) {
    switch (form) {
    case 'n': return number >= INT32_MIN && number <= INT32_MAX;
    case 'f': return number >= INT32_MIN && number <= INT32_MAX;
    case 'e': return number >= INT32_MIN && number <= INT32_MAX;
    case 'u': return number >= 0 && number <= UINT32_MAX;
    case 'm': return number >= 0;
    default: return 1;
    }
}

struct text {
    char *bytes;
    size_t size, room;
};

static int put(struct text *text, const char *bytes, size_t count) {
    if (text->room - text->size <= count) {
        size_t room = 2 * (text->size + count) + 64;
        char *larger = realloc(text->bytes, room);
        if (larger == NULL) return 0;
        text->bytes = larger, text->room = room;
    }
    memcpy(text->bytes + text->size, bytes, count);
    text->size += count;
    text->bytes[text->size] = 0;
    return 1;
}

static int put_number(struct text *text, int64_t number) {
    char digits[24];
    return put(text, digits, (size_t)snprintf(digits, sizeof digits, "%lld", (long long)number));
}

// A config by its number of ours: its ID at the driver, its handle. One that is none of ours stays as it is, unless the driver has one of
// that ID.
static const char *config_argument(struct request *request, int64_t ours, struct text *text) {
    int64_t id = config_for(play.configs, play.configs_count, ours);
    if (ours >= 1 && ours <= 8) {
        if (id < 0) return "config";
        request->config = config_handle((void *)(intptr_t)request->number[0], id);
    } else {
        id = ours;
        for (int k = 0; k < play.configs_count; k++)
            if (play.configs[k].id == ours) id = 0;
        request->config = (void *)(intptr_t)id;
    }
    return put_number(text, id) ? NULL : "memory";
}

// A list of attributes: its words are the trace's, but for the ID of a config.
static const char *attributes_argument(struct request *request, struct word word, struct text *text) {
    request->count = attributes_end(request->items, request->count);
    size_t copied = 0, at = 1;
    for (int k = 0; k < request->count; k++) {
        size_t next = at;
        while (next < word.length - 1 && word.text[next] != ',') next++;
        int64_t number = number_of(&request->items[k]), name = k % 2 != 0 ? request->list[k - 1] : 0;
        if (!in_c('e', number)) return "number";
        if (name == EGL_CONFIG_ID && number != -1) {
            int64_t id = number >= 1 && number <= 8 ? config_for(play.configs, play.configs_count, number) : -1;
            if (id < 0) return "config";
            if (!put(text, word.text + copied, at - copied) || !put_number(text, id)) return "memory";
            copied = next, number = id;
        }
        if (name == EGL_SURFACE_TYPE && number > 0 && (number & 8) != 0) number = (number & ~(int64_t)8) | EGL_SWAP_BEHAVIOR_PRESERVED_BIT;
        request->list[k] = (int)number, request->wide[k] = (intptr_t)number;
        at = next + 1;
    }
    request->list[request->count] = EGL_NONE, request->wide[request->count] = EGL_NONE;
    return put(text, word.text + copied, word.length - copied) ? NULL : "memory";
}

static const char *list_argument(struct request *request, struct word word, char form, struct text *text) {
    size_t most = word.length / 2 + 2;
    request->items = calloc(most, sizeof *request->items);
    request->list = calloc(most + 4, sizeof *request->list);
    request->wide = calloc(most + 4, sizeof *request->wide);
    if (request->items == NULL || request->list == NULL || request->wide == NULL) return "memory";
    request->count = read_list(&play.trace, word, request->items, (int)most);
    if (form == 'a') return attributes_argument(request, word, text);
    for (int k = 0; k < request->count; k++) {
        int64_t number = number_of(&request->items[k]);
        if (lost(&request->items[k])) return "variable";
        if (!in_c(form == 'l' ? 'u' : 'n', number)) return "number";
        request->list[k] = (int)number;
    }
    return put(text, word.text, word.length) ? NULL : "memory";
}

// The bytes of a payload, and zeros behind them as far as the call can read.
static const char *payload_argument(struct request *request, struct word word) {
    int64_t given = read_payload(word, NULL, 0), room = given;
    const int64_t *number = request->number;
    int sub = request->line->call == CALL_glTexSubImage2D || request->line->call == CALL_glBufferSubData;
    int64_t width = number[sub ? 4 : 3], height = number[sub ? 5 : 4];
    switch (request->line->call) {
    case CALL_glBufferData: room = number[1]; break;
    case CALL_glBufferSubData: room = number[2]; break;
    default: room = width > 0 && height > 0 && width < 65536 && height < 65536 ? (4 * width + 8) * height : 0;
    }
    if (word.length == 1 && !sub) return NULL;
    if (room < given) room = given;
    if (room > 1 << 28) return "memory";
    request->bytes = calloc((size_t)room + 8, 1);
    if (request->bytes == NULL) return "memory";
    read_payload(word, request->bytes, (size_t)given);
    return NULL;
}

static const char *argument(struct request *request, int place, struct text *text) {
    struct word word = request->line->word[place];
    char form = call_forms[request->line->call][place];
    struct item item;
    if (form == 'a' || form == 'i' || form == 'l') return list_argument(request, word, form, text);
    if (form == 'b') {
        const char *reason = payload_argument(request, word);
        return reason != NULL ? reason : put(text, word.text, word.length) ? NULL : "memory";
    }
    read_item(&play.trace, word.text, word.length, &item);
    if (lost(&item)) return "variable";
    int64_t number = request->number[place] = number_of(&item);
    if (form == 'c') return config_argument(request, item.number, text);
    if (!in_c(form, number)) return "number";
    if (form == 'm') request->number[place] = clear_mask(number);
    return put(text, word.text, word.length) ? NULL : "memory";
}

int window_in_use(const struct window_state *window) {
    if (window->valid) return 1;
    for (int k = 0; window->surface != NULL && k < play.trace.threads; k++)
        if (play.players[k].draw == window->surface || play.players[k].read == window->surface) return 1;
    return 0;
}

// What a pbuffer in the place of a window can't answer: a second surface of it, attributes of windows, and what a swap leaves.
static int needs_window(const struct request *request) {
    int creates = request->line->call == CALL_eglCreateWindowSurface;
    if (has_windows()) return 0;
    if (!creates && request->line->call != CALL_eglSurfaceAttrib) return 0;
    for (int k = 0; k < play.trace.windows; k++) {
        if (!creates && (intptr_t)play.windows[k].surface == request->number[1] && play.windows[k].surface != NULL &&
            request->number[2] == EGL_SWAP_BEHAVIOR)
            return 1;
        if (!creates || play.trace.window[k].id != request->number[2]) continue;
        for (int item = 0; item < request->count; item += 2)
            if (request->list[item] != EGL_RENDER_BUFFER ||
                (request->list[item + 1] != EGL_BACK_BUFFER && request->list[item + 1] != EGL_SINGLE_BUFFER))
                return 1;
        // Two pbuffers of free threads can't stand for one window.
        return window_in_use(&play.windows[k]) || (play.is_free && play.windows[k].taken++ > 0);
    }
    return 0;
}

// What C has no arguments for.
static const char *unlike_c(const struct request *request) {
    int64_t first = request->number[0];
    if (needs_window(request)) return "window";
    switch (request->line->call) {
    // Any other number would be read as the address of a server's connection.
    case CALL_eglGetDisplay: return first != 0 && has_windows() ? "display" : NULL;
    case CALL_glGetIntegerv: {
        int most = first == GL_VIEWPORT || first == GL_SCISSOR_BOX ? 3 : 0;
        return request->number[1] < 0 || request->number[1] > most ? "index" : NULL;
    }
    case CALL_glTexParameteriv: return request->number[1] == GL_TEXTURE_CROP_RECT_OES && request->count != 4 ? "numbers" : NULL;
    case CALL_glGenTextures:
    case CALL_glGenBuffers:
    case CALL_glGenRenderbuffersOES:
    case CALL_glGenFramebuffersOES: return first > 65536 ? "memory" : NULL;
    default: return NULL;
    }
}

// Whether the driver has a call. The pointers stand in the order of the calls.
static int has_call(int call) {
    void *pointer;
    memcpy(&pointer, (const char *)&play.calls + (size_t)call * sizeof pointer, sizeof pointer);
    return pointer != NULL;
}

const char *prepare(struct request *request, const struct line *line) {
    struct text text = {0};
    char digits[24];
    *request = (struct request){.line = line};
    int good = put(&text, digits, (size_t)snprintf(digits, sizeof digits, "%d ", line->thread));
    if (line->variable >= 0)
        good = good && put(&text, "$", 1) &&
               put(&text, play.trace.variable[line->variable].text, play.trace.variable[line->variable].length) && put(&text, " = ", 3);
    good = good && put(&text, call_names[line->call], strlen(call_names[line->call]));
    const char *reason = !has_call(line->call) ? "call" : good ? NULL : "memory";
    for (int k = 0; k < line->words && reason == NULL; k++) {
        good = put(&text, " ", 1);
        reason = good ? argument(request, k, &text) : "memory";
    }
    request->text = text.bytes;
    return reason != NULL ? reason : unlike_c(request);
}

void release(struct request *request) {
    free(request->items);
    free(request->list);
    free(request->wide);
    free(request->bytes);
    free(request->text);
    *request = (struct request){0};
}
