#include "trace.h"

#include <stdlib.h>
#include <string.h>

#include "calls.h"
#include "egl_words.h"
#include "log.h"

#define MOST_LINES 100000
#define MOST_PAYLOAD 8388608
#define MOST_PAYLOADS 67108864
#define MOST_ASKED 134217728
#define MOST_AREA 16777216

#define NAME(returns, name, types, forms) #name,
#define OWN_NAME(name, forms) #name,
#define FORMS(returns, name, types, forms) forms,
#define OWN_FORMS(name, forms) forms,
const char *const call_names[] = {CALLS(NAME) OWN_CALLS(OWN_NAME)};
const char *const call_forms[] = {CALLS(FORMS) OWN_CALLS(OWN_FORMS)};

#define PLAIN(name, number) {#name, number, 0},
#define BIT(name, ours, standard) {#name, ours, 1},
static const struct {
    const char *name;
    int64_t number;
    int bit;
} more_words[] = {PLAIN_WORDS(PLAIN) BIT_WORDS(BIT)};
#define MORE_WORDS (int)(sizeof more_words / sizeof *more_words)

static int same(const char *name, const char *text, size_t length) { return strlen(name) == length && memcmp(name, text, length) == 0; }

static int more_place(const char *text, size_t length) {
    for (int k = 0; k < MORE_WORDS; k++)
        if (same(more_words[k].name, text, length)) return k;
    return -1;
}

static int letter(char byte) { return byte == '_' || (byte >= 'a' && byte <= 'z') || (byte >= 'A' && byte <= 'Z'); }
static int digit(char byte) { return byte >= '0' && byte <= '9'; }
static int hex(char byte) { return digit(byte) ? byte - '0' : byte >= 'a' && byte <= 'f' ? byte - 'a' + 10 : -1; }

// Digits of a decimal number, which may be greater than any number.
static int read_digits(const char *text, size_t length, int64_t *number) {
    *number = 0;
    if (length == 0 || (length > 1 && text[0] == '0')) return 0;
    for (size_t k = 0; k < length; k++) {
        if (!digit(text[k])) return 0;
        *number = *number > (INT64_MAX - 9) / 10 ? INT64_MAX : 10 * *number + (text[k] - '0');
    }
    return 1;
}

// A decimal number without a sign and leading zeros.
static int read_decimal(const char *text, size_t length, int64_t *number) {
    *number = 0;
    if (length == 0 || length > 19 || (length > 1 && text[0] == '0')) return 0;
    for (size_t k = 0; k < length; k++) {
        if (!digit(text[k]) || *number > (INT64_MAX - (text[k] - '0')) / 10) return 0;
        *number = 10 * *number + (text[k] - '0');
    }
    return 1;
}

static int read_hexadecimal(const char *text, size_t length, int64_t *number) {
    *number = 0;
    if (length == 0 || length > 8) return 0;
    for (size_t k = 0; k < length; k++) {
        if (hex(text[k]) < 0) return 0;
        *number = 16 * *number + hex(text[k]);
    }
    return 1;
}

// Bits that are joined, a name, or a word.
static int read_words(const char *text, size_t length, struct item *item) {
    int place = word_place(text, length), more = more_place(text, length);
    if (place >= 0) return item->number = FIRST_CODE + place, 1;
    if (more >= 0) return item->number = more_words[more].number, 1;
    for (size_t from = 0; from <= length;) {
        const char *bar = from < length ? memchr(text + from, '|', length - from) : NULL;
        size_t end = bar == NULL ? length : (size_t)(bar - text);
        more = more_place(text + from, end - from);
        if (more < 0 || !more_words[more].bit) return 0;
        item->number |= more_words[more].number;
        from = end + 1;
    }
    return 1;
}

static int read_number(const char *text, size_t length, struct item *item) {
    *item = (struct item){.variable = -1, .place = -1};
    if (length == 0) return 0;
    if (letter(text[0])) {
        if (!read_words(text, length, item)) return 0;
    } else if (length > 2 && text[0] == '0' && text[1] == 'x') {
        if (!read_hexadecimal(text + 2, length - 2, &item->number)) return 0;
    } else {
        int minus = text[0] == '-';
        if (!read_decimal(text + minus, length - (size_t)minus, &item->number)) return 0;
        if (minus && item->number == 0) return 0;
        if (minus) item->number = -item->number;
    }
    item->named = item->number >= FIRST_CODE && item->number < FIRST_CODE + WORDS;
    return 1;
}

static int find_variable(const struct trace *trace, const char *text, size_t length);

int read_item(const struct trace *trace, const char *text, size_t length, struct item *item) {
    int64_t place = -1;
    if (length == 0 || text[0] != '$') return read_number(text, length, item);
    const char *point = memchr(text, '.', length);
    size_t end = point == NULL ? length : (size_t)(point - text);
    if (point != NULL && (!read_decimal(point + 1, length - end - 1, &place) || place > 1023)) return 0;
    *item = (struct item){.variable = find_variable(trace, text + 1, end - 1), .place = (int)place};
    return item->variable >= 0;
}

int read_list(const struct trace *trace, struct word word, struct item *items, int most) {
    const char *text = word.text;
    size_t length = word.length;
    int count = 0;
    if (length < 2 || text[0] != '[' || text[length - 1] != ']') return -1;
    if (length == 2) return 0;
    for (size_t from = 1; from < length; count++) {
        const char *comma = memchr(text + from, ',', length - 1 - from);
        size_t end = comma == NULL ? length - 1 : (size_t)(comma - text);
        if (count == most || !read_item(trace, text + from, end - from, &items[count])) return -1;
        from = end + 1;
    }
    return count;
}

int64_t read_payload(struct word word, unsigned char *bytes, size_t room) {
    const char *text = word.text;
    size_t length = word.length, at = 1;
    int64_t times = 1;
    if (same("-", text, length)) return 0;
    if (length == 0 || (text[0] != '#' && text[0] != '*')) return -1;
    if (text[0] == '*') {
        const char *colon = memchr(text, ':', length);
        if (colon == NULL || !read_decimal(text + 1, (size_t)(colon - text) - 1, &times) || times > UINT32_MAX) return -1;
        at = (size_t)(colon - text) + 1;
    }
    size_t count = (length - at) / 2;
    if ((length - at) % 2 != 0) return -1;
    for (size_t k = at; k < length; k++)
        if (hex(text[k]) < 0) return -1;
    for (size_t k = 0; bytes != NULL && count > 0 && k < (size_t)times * count && k < room; k++)
        bytes[k] = (unsigned char)(16 * hex(text[at + 2 * (k % count)]) + hex(text[at + 2 * (k % count) + 1]));
    return times * (int64_t)count;
}

int attributes_end(const struct item *items, int count) {
    int end = 0;
    while (end < count && !(items[end].named && items[end].number == FIRST_CODE + PLACE_EGL_NONE)) end += 2;
    return end < count ? end : count;
}

// ---- variables

// The places of the names of variables, by a hash of the name.
static int *places;
static size_t places_room;

static size_t place_for(const struct trace *trace, const char *text, size_t length) {
    size_t hash = 14695981039346656037u;
    for (size_t k = 0; k < length; k++) hash = (hash ^ (unsigned char)text[k]) * 1099511628211u;
    for (hash %= places_room;; hash = (hash + 1) % places_room) {
        int k = places[hash];
        if (k < 0 || (trace->variable[k].length == length && memcmp(trace->variable[k].text, text, length) == 0)) return hash;
    }
}

static int find_variable(const struct trace *trace, const char *text, size_t length) { return places[place_for(trace, text, length)]; }

static int variable_form(struct word word) {
    if (word.length < 2 || word.length > 33 || word.text[0] != '$') return 0;
    for (size_t k = 1; k < word.length; k++)
        if (!(digit(word.text[k]) || (word.text[k] >= 'a' && word.text[k] <= 'z') || word.text[k] == '_')) return 0;
    return 1;
}

// ---- lines

struct raw {
    int number;
    int words;
    const struct word *word;
    int assigns;
};

// Whether a word that begins with a letter is none of the names and the words, or has a part between bars that isn't.
static int unknown(const char *text, size_t length) {
    if (length == 0 || !letter(text[0])) return 0;
    for (size_t from = 0; from <= length;) {
        const char *bar = from < length ? memchr(text + from, '|', length - from) : NULL;
        size_t end = bar == NULL ? length : (size_t)(bar - text);
        if (end > from && letter(text[from]) && word_place(text + from, end - from) < 0 && more_place(text + from, end - from) < 0)
            return 1;
        from = end + 1;
    }
    return 0;
}

static int unknown_in(struct word word) {
    if (word.length < 2 || word.text[0] != '[' || word.text[word.length - 1] != ']') return unknown(word.text, word.length);
    for (size_t from = 1; from < word.length;) {
        const char *comma = memchr(word.text + from, ',', word.length - 1 - from);
        size_t end = comma == NULL ? word.length - 1 : (size_t)(comma - word.text);
        if (unknown(word.text + from, end - from)) return 1;
        from = end + 1;
    }
    return 0;
}

static int in_range(const struct item *item, char form) {
    if (item->variable >= 0) return form == 'u' || form == 'v' || form == 'l';
    if (form == 'p') return item->number >= 0 && item->number <= INT32_MAX;
    return item->number >= INT32_MIN && (item->number <= UINT32_MAX || form == 't');
}

static int starred(char form) { return form == 'u' || form == 'v' || form == 'l'; }

// The form of a number or a variable: 0 where it has another, -1 where it uses a variable that isn't assigned.
static int item_fits(const struct trace *trace, const char *text, size_t length, char form) {
    struct item item;
    if (!read_item(trace, text, length, &item)) return starred(form) && length > 0 && text[0] == '$' ? -1 : 0;
    return in_range(&item, form);
}

static int list_fits(const struct trace *trace, struct word word, char form) {
    int fits = 1, count = 0;
    if (word.length < 2 || word.text[0] != '[' || word.text[word.length - 1] != ']') return 0;
    for (size_t from = 1; from < word.length && word.length > 2; count++) {
        const char *comma = memchr(word.text + from, ',', word.length - 1 - from);
        size_t end = comma == NULL ? word.length - 1 : (size_t)(comma - word.text);
        int item = item_fits(trace, word.text + from, end - from, form);
        if (item == 0) return 0;
        if (item < 0) fits = -1;
        from = end + 1;
    }
    if (form != 'a' || count % 2 == 0) return fits;
    struct item *items = calloc((size_t)count, sizeof *items);
    int ends = items != NULL && attributes_end(items, read_list(trace, word, items, count)) < count;
    free(items);
    return ends ? fits : 0;
}

static int argument_fits(const struct trace *trace, struct word word, char form) {
    if (form == 'b') return read_payload(word, NULL, 0) >= 0;
    return form == 'a' || form == 'i' || form == 'l' ? list_fits(trace, word, form) : item_fits(trace, word.text, word.length, form);
}

// The bytes of pixels and of buffers that a line asks for.
static int64_t asked(const struct trace *trace, const struct line *line) {
    int64_t number[6] = {0};
    for (int k = 0; k < line->words && k < 6; k++) {
        struct item item;
        if (read_item(trace, line->word[k].text, line->word[k].length, &item)) number[k] = item.number;
    }
    if (line->call == CALL_glReadPixels)
        return number[2] > 0 && number[3] > 0
                   ? (4 * number[2] + 8 > MOST_ASKED / number[3] ? MOST_ASKED + 1 : (4 * number[2] + 8) * number[3])
                   : 0;
    if (line->call == CALL_readBuffer) return number[2] > 0 ? number[2] : 0;
    for (int k = 0; k < trace->windows && line->call == CALL_readFront; k++)
        if (trace->window[k].id == number[0]) return 4 * trace->window[k].width * trace->window[k].height;
    return 0;
}

static const char *read_arguments(struct trace *trace, const struct line *line) {
    const char *forms = call_forms[line->call], *reason = NULL;
    int64_t payload = 0;
    if (strlen(forms) != (size_t)line->words) return "Argument";
    for (int k = 0; k < line->words; k++) {
        int fits = argument_fits(trace, line->word[k], forms[k]);
        if (fits == 0) return "Argument";
        if (fits < 0) reason = "Variable";
        if (forms[k] == 'b') payload = read_payload(line->word[k], NULL, 0);
    }
    trace->payloads += payload;
    trace->asked += asked(trace, line);
    return reason != NULL                                                                           ? reason
           : payload > MOST_PAYLOAD || trace->payloads > MOST_PAYLOADS || trace->asked > MOST_ASKED ? "Limit"
                                                                                                    : NULL;
}

static int call_of(struct word word) {
    for (int k = 0; k < CALL_COUNT; k++)
        if (same(call_names[k], word.text, word.length)) return k;
    return -1;
}

static const char *read_body(struct trace *trace, const struct raw *raw) {
    struct line *line = &trace->line[trace->lines];
    int first = raw->assigns ? 3 : 1;
    int64_t thread;
    if (!read_decimal(raw->word[0].text, raw->word[0].length, &thread) || thread >= trace->threads) return "Thread";
    if (raw->words <= first) return "Name";
    *line = (struct line){raw->number, (int)thread, call_of(raw->word[first]), -1, raw->words - first - 1, raw->word + first + 1};
    if (line->call < 0) return "Name";
    for (int k = 0; k < line->words; k++)
        if (unknown_in(line->word[k])) return "Name";
    const char *reason = read_arguments(trace, line);
    if (reason != NULL && strcmp(reason, "Argument") == 0) return reason;
    if (raw->assigns) {
        line->variable = variable_form(raw->word[1]) ? find_variable(trace, raw->word[1].text + 1, raw->word[1].length - 1) : -1;
        // The name's first line has it.
        if (line->variable < 0 || trace->variable[line->variable].text != raw->word[1].text + 1) return "Variable";
    }
    if (reason == NULL && trace->lines == MOST_LINES) reason = "Limit";
    trace->lines++;
    return reason;
}

static const char *read_head(struct trace *trace, const struct raw *raw) {
    int64_t number[3];
    int video = raw->word[0].length == 5;
    if (raw->words != (video ? 2 : 4)) return "Window";
    for (int k = 1; k < raw->words; k++)
        if (!read_digits(raw->word[k].text, raw->word[k].length, &number[k - 1])) return "Window";
    if (video) return trace->video = number[0], number[0] > 1073741824 ? "Limit" : NULL;
    if (number[0] == 0 || number[0] > INT32_MAX) return "Window";
    for (int k = 0; k < trace->windows; k++)
        if (trace->window[k].id == number[0]) return "Window";
    if (trace->windows == 64 || number[1] < 1 || number[1] > 2048 || number[2] < 1 || number[2] > 2048) return "Limit";
    trace->window[trace->windows++] = (struct window){number[0], number[1], number[2]};
    return (trace->area += number[1] * number[2]) > MOST_AREA ? "Limit" : NULL;
}

// The lines that say something, split into words.
static int split(char *text, size_t size, struct raw *raw, struct word *word) {
    int lines = 0, number = 0;
    for (size_t from = 0; from < size || number == 0;) {
        char *feed = from < size ? memchr(text + from, '\n', size - from) : NULL;
        size_t end = feed == NULL ? size : (size_t)(feed - text), next = end + 1;
        if (feed != NULL && end > from && text[end - 1] == '\r') end--;
        struct raw *line = &raw[lines];
        *line = (struct raw){.number = ++number, .word = word};
        int says = number == 1 || (end > from && text[from] != '#');
        for (size_t k = from; says && k < end;) {
            size_t stop = k;
            while (stop < end && text[stop] != ' ') stop++;
            if (stop > k) word[line->words++] = (struct word){text + k, stop - k};
            k = stop + 1;
        }
        word += line->words;
        line->assigns = line->words >= 3 && line->word[1].text[0] == '$' && same("=", line->word[2].text, line->word[2].length);
        if (number == 1 || line->words > 0) lines++;
        from = next;
    }
    return lines;
}

static const char *read_header(struct trace *trace, const struct raw *raw) {
    int64_t threads;
    if (raw->words != 3 || !same("egl-trace", raw->word[0].text, raw->word[0].length) ||
        !same("1", raw->word[1].text, raw->word[1].length) || !read_digits(raw->word[2].text, raw->word[2].length, &threads))
        return "Header";
    trace->threads = (int)(threads <= 16 ? threads : 17);
    return threads < 1 || threads > 16 ? "Limit" : NULL;
}

const char *read_trace(struct trace *trace, char *text, size_t size, int *line) {
    size_t feeds = 1;
    for (size_t k = 0; k < size; k++) feeds += text[k] == '\n';
    struct raw *raw = calloc(feeds + 1, sizeof *raw);
    struct word *words = calloc(size / 2 + 2, sizeof *words);
    trace->line = calloc(feeds + 1, sizeof *trace->line);
    trace->variable = calloc(feeds + 1, sizeof *trace->variable);
    places_room = 2 * feeds + 16;
    places = malloc(places_room * sizeof *places);
    *line = 0;
    if (raw == NULL || words == NULL || trace->line == NULL || trace->variable == NULL || places == NULL) return "memory";
    memset(places, -1, places_room * sizeof *places);
    int lines = split(text, size, raw, words);
    for (int k = 1; k < lines; k++) {
        if (!raw[k].assigns || !variable_form(raw[k].word[1])) continue;
        struct word name = {raw[k].word[1].text + 1, raw[k].word[1].length - 1};
        size_t place = place_for(trace, name.text, name.length);
        if (places[place] < 0) trace->variable[trace->variables] = name, places[place] = trace->variables++;
    }
    trace->video = -1;
    const char *reason = read_header(trace, &raw[0]);
    *line = 1;
    int head = 1;
    for (int k = 1; k < lines && reason == NULL; k++) {
        int video = same("video", raw[k].word[0].text, raw[k].word[0].length) && k == 1;
        head = head && (video || same("window", raw[k].word[0].text, raw[k].word[0].length));
        *line = raw[k].number;
        reason = head ? read_head(trace, &raw[k]) : read_body(trace, &raw[k]);
    }
    free(raw);
    return reason;
}
