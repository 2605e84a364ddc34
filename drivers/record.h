// What the calls of a recording share: how lines are begun, what stands in them, and how they end.
#ifndef RECORD_H
#define RECORD_H

#include <stddef.h>
#include <stdint.h>

#include "calls.h"
#include "driver.h"
#include "outside.h"

// Calls by older names, and with other types of their arguments; each becomes a line of one of the calls.
// clang-format off
#define MORE_CALLS(CALL) \
    CALL(void *, eglGetProcAddress, (const char *)) \
    CALL(void *, eglGetPlatformDisplay, (unsigned, void *, const intptr_t *)) \
    CALL(void *, eglGetPlatformDisplayEXT, (unsigned, void *, const int *)) \
    CALL(void *, eglCreatePlatformWindowSurface, (void *, void *, void *, const intptr_t *)) \
    CALL(void *, eglCreatePlatformWindowSurfaceEXT, (void *, void *, void *, const int *)) \
    CALL(void *, eglCreateSyncKHR, (void *, unsigned, const int *)) \
    CALL(void *, eglCreateSync64KHR, (void *, unsigned, const intptr_t *)) \
    CALL(unsigned, eglDestroySyncKHR, (void *, void *)) \
    CALL(int, eglClientWaitSyncKHR, (void *, void *, int, uint64_t)) \
    CALL(int, eglWaitSyncKHR, (void *, void *, int)) \
    CALL(unsigned, eglGetSyncAttribKHR, (void *, void *, int, int *)) \
    CALL(void *, eglCreateImageKHR, (void *, void *, unsigned, void *, const int *)) \
    CALL(unsigned, eglDestroyImageKHR, (void *, void *)) \
    CALL(void, glClearColor, (float, float, float, float)) \
    CALL(void, glColor4f, (float, float, float, float)) \
    CALL(void, glColor4ub, (unsigned char, unsigned char, unsigned char, unsigned char)) \
    CALL(void, glClearDepthf, (float)) \
    CALL(void, glTexParameterf, (unsigned, unsigned, float)) \
    CALL(void, glTexParameteri, (unsigned, unsigned, int)) \
    CALL(void, glTexParameterfv, (unsigned, unsigned, const float *)) \
    CALL(void, glTexParameterxv, (unsigned, unsigned, const int *)) \
    CALL(void, glTexEnvf, (unsigned, unsigned, float)) \
    CALL(void, glTexEnvi, (unsigned, unsigned, int)) \
    CALL(void, glTexEnvfv, (unsigned, unsigned, const float *)) \
    CALL(void, glTexEnviv, (unsigned, unsigned, const int *)) \
    CALL(void, glTexEnvxv, (unsigned, unsigned, const int *)) \
    CALL(void, glDrawTexfOES, (float, float, float, float, float)) \
    CALL(void, glDrawTexsOES, (short, short, short, short, short)) \
    CALL(void, glDrawTexivOES, (const int *)) \
    CALL(void, glDrawTexxvOES, (const int *)) \
    CALL(void, glDrawTexfvOES, (const float *)) \
    CALL(void, glDrawTexsvOES, (const short *))
// clang-format on

#define POINTER(returns, name, types) returns(*name) types;
struct more {
    MORE_CALLS(POINTER)
};
#undef POINTER
extern struct calls real;
extern struct more more;

// What handles and names are of; those of names have one space for each share group.
enum space { DISPLAY, CONFIG, SURFACE, CONTEXT, SYNC, IMAGE, WINDOW, TEXTURE, BUFFER, RENDERBUFFER, FRAMEBUFFER, SPACES };

struct context {
    void *handle;
    int group;
    // The error that it keeps, and whether a call that has no line made it.
    unsigned error;
    int outside;
};

struct thread {
    int number;
    int egl_error, egl_outside;
    struct context *context;
};
extern _Thread_local struct thread me;

// Takes the turn. Answers 0 where the call isn't the program's own or isn't recorded.
int enter(void);
void leave(void);
// Leaves with all lines written.
void leave_written(void);
// Begins a line, and one whose answer has a variable.
void begin(const char *name);
void begin_making(const char *name, char letter);
// Arguments.
void put_handle(enum space space, void *handle);
void put_config(void *config);
void put_name(enum space space, unsigned name);
void put_number(long long number);
void put_egl(long long number);
void put_gl(long long number);
void put_attributes(const intptr_t *list);
void put_narrow_attributes(const int *list);
void put_names(enum space space, int count, const unsigned *names);
void put_bytes(const void *bytes, size_t size);
// A float as 16.16. Where it isn't one, or where an argument isn't written whole, a comment stands above the line; both are said in front
// of `begin`.
int fixed(float number);
void inexact(void);
// Ends. EGL's asks for the error and keeps it; it answers whether there is none. OpenGL ES's likewise.
int end_egl(void);
int end_gl(void);
void end_value(long long value);
void end_handle(void *handle);
void close_line(void);
// What stands for a handle or a name from here on: the variable of the line that was begun last.
void know_handle(enum space space, void *handle);
void know_names(enum space space, int count, const unsigned *names);
void know_configs(void *display, void **configs, int count);
void know_listed(void **configs, int count);
void know_context(void *handle, void *share);
void know_current(void *handle);
void know_window(int id, int width, int height);
int window_id(void *window);
int display_id(void *display);
// The head has the configs from here on.
void know_display(void *display);
// A call of this library, NULL where it has none of that name; and where those of the real ones are found.
void *own_call(const char *name);
void find_calls(void);
void outside(const char *name);

#endif
