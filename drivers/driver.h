// A driver that is opened at run time, and its configs.
#ifndef DRIVER_H
#define DRIVER_H

#include <stdint.h>

#include "calls.h"

#define MOST_CONFIGS 512

struct config {
    int64_t id;
    // Red, green, blue, alpha, depth and stencil.
    int sizes[6];
    // Whether it is one that a program without wishes gets: for OpenGL ES, with pbuffers, without samples and caveat.
    int usual;
};

// Which surfaces a usual config has: pbuffers at first.
extern int usual_surfaces;
// Opens the libraries. Answers NULL, or which of them or of their calls isn't there.
const char *open_driver(struct calls *calls, const char *egl, const char *gles);
// Another call of the libraries, NULL where they have none of that name.
void *driver_call(const char *name);
// The configs of a display that is initialised, and their handles: how many there are.
int list_configs(const struct calls *calls, void *display, struct config *configs, void **handles);
// Writes the `config` lines of a log, the usual ones first.
void log_configs(const struct config *configs, int count);
// The ID of the first config in that order that has the sizes of this one of our own; -1 where there is none.
int64_t config_for(const struct config *configs, int count, int64_t ours);

#endif
