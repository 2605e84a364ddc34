// Reads traces, each behind a line with its size, and tells the first defect of each.
#include <stdio.h>
#include <stdlib.h>

#include "../trace.h"

int main(void) {
    size_t size;
    while (scanf("%zu", &size) == 1 && getchar() == '\n') {
        struct trace trace = {0};
        char *text = malloc(size + 1);
        int line;
        if (text == NULL || fread(text, 1, size, stdin) != size) return 1;
        const char *reason = read_trace(&trace, text, size, &line);
        if (reason != NULL) printf("malformed %d %s\n", line, reason);
        else printf("a trace\n");
    }
    return 0;
}
