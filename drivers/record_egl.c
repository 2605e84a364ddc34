// The calls of EGL that a recording has lines for.
#define _GNU_SOURCE
#include <dlfcn.h>
#include <stdlib.h>
#include <string.h>

#include "egl_words.h"
#include "log.h"
#include "record.h"

#define SET(call, pointer) memcpy(&(call), &(void *){pointer}, sizeof(void *))

// ---- calls by name

#define OUTSIDE_POINTER(returns, name, types, names) static returns(*real_##name) types;
OUTSIDE_CALLS(OUTSIDE_POINTER)

void find_calls(void) {
#define FIND(returns, name, types) SET(more.name, driver_call(#name));
    MORE_CALLS(FIND)
#define FIND_OUTSIDE(returns, name, types, names) SET(real_##name, driver_call(#name));
    OUTSIDE_CALLS(FIND_OUTSIDE)
}

// A call that has no line: it isn't in anybody's way, and what it did is asked for behind it.
#define OUTSIDE(returns, name, types, names) \
    returns name types { \
        if (!enter()) return real_##name names; \
        leave(); \
        struct after after __attribute__((cleanup(say_outside), unused)) = {#name}; \
        return real_##name names; \
    }
struct after {
    const char *name;
};
static void say_outside(struct after *after) {
    if (!enter()) return;
    outside(after->name);
    leave();
}
OUTSIDE_CALLS(OUTSIDE)

void *own_call(const char *name) {
    Dl_info here;
    static void *library;
    if (library == NULL && dladdr((void *)(intptr_t)&own_call, &here) != 0) library = dlopen(here.dli_fname, RTLD_NOW | RTLD_NOLOAD);
    return library == NULL || (strncmp(name, "egl", 3) != 0 && strncmp(name, "gl", 2) != 0) ? NULL : dlsym(library, name);
}

void *eglGetProcAddress(const char *name) {
    if (!enter()) return more.eglGetProcAddress(name);
    void *found = more.eglGetProcAddress(name), *own = found == NULL ? NULL : own_call(name);
    // What has no call here is used unseen.
    if (own == NULL) log_text("# outside eglGetProcAddress "), log_text(name), log_text("\n");
    leave();
    return own != NULL ? own : found;
}

// ---- displays and configs

int eglGetError(void) {
    if (!enter()) return real.eglGetError();
    int now = real.eglGetError(), error = me.egl_error != EGL_SUCCESS ? me.egl_error : now;
    if (me.egl_outside)
        log_text("# outside eglGetError\n");
    else
        begin("eglGetError"), log_text(" => ok "), log_egl_name(error), close_line();
    me.egl_error = EGL_SUCCESS, me.egl_outside = 0;
    leave();
    return error;
}

// Which display it is is known behind the call alone: the line is written again then.
static void *get_display(void *display) {
    free(log_take());
    begin_making("eglGetDisplay", 'd');
    put_number(display_id(display));
    end_egl();
    if (display != NULL) know_handle(DISPLAY, display);
    if (me.egl_error == EGL_SUCCESS)
        end_handle(display);
    else
        close_line();
    leave();
    return display;
}

void *eglGetDisplay(void *native) {
    if (!enter()) return real.eglGetDisplay(native);
    begin("eglGetDisplay"), put_number(0);
    return get_display(real.eglGetDisplay(native));
}
void *eglGetPlatformDisplay(unsigned platform, void *native, const intptr_t *attributes) {
    if (!enter()) return more.eglGetPlatformDisplay(platform, native, attributes);
    begin("eglGetDisplay"), put_number(0);
    return get_display(more.eglGetPlatformDisplay(platform, native, attributes));
}
void *eglGetPlatformDisplayEXT(unsigned platform, void *native, const int *attributes) {
    if (!enter()) return more.eglGetPlatformDisplayEXT(platform, native, attributes);
    begin("eglGetDisplay"), put_number(0);
    return get_display(more.eglGetPlatformDisplayEXT(platform, native, attributes));
}

// Ends a line whose answer is a number.
static void answer(long long value) {
    if (end_egl())
        end_value(value);
    else
        close_line();
    leave();
}

unsigned eglInitialize(void *display, int *major, int *minor) {
    if (!enter()) return real.eglInitialize(display, major, minor);
    begin("eglInitialize"), put_handle(DISPLAY, display);
    unsigned done = real.eglInitialize(display, major, minor);
    int good = end_egl();
    if (good)
        end_value(done);
    else
        close_line();
    if (good) know_display(display);
    leave();
    return done;
}

unsigned eglTerminate(void *display) {
    if (!enter()) return real.eglTerminate(display);
    begin("eglTerminate"), put_handle(DISPLAY, display);
    unsigned done = real.eglTerminate(display);
    if (end_egl())
        end_value(done);
    else
        close_line();
    leave_written();
    return done;
}

// The IDs of all that were chosen, also where the program had room for fewer.
static void answer_configs(void *display, unsigned done, void **configs, int count) {
    if (!end_egl())
        close_line();
    else {
        know_configs(display, configs, count);
        know_listed(configs, count);
        log_number(done), log_text(" [");
        for (int k = 0; k < count; k++) {
            int id = 0;
            real.eglGetConfigAttrib(display, configs[k], EGL_CONFIG_ID, &id);
            log_text(k == 0 ? "" : ","), log_number(id);
        }
        log_text("]"), close_line();
    }
    leave();
}

unsigned eglGetConfigs(void *display, void **list, int room, int *found) {
    static void *all[MOST_CONFIGS];
    int count = 0;
    if (!enter()) return real.eglGetConfigs(display, list, room, found);
    begin_making("eglGetConfigs", 'k'), put_handle(DISPLAY, display);
    unsigned done = real.eglGetConfigs(display, list, room, found);
    if (done) real.eglGetConfigs(display, all, MOST_CONFIGS, &count);
    answer_configs(display, done, all, count);
    return done;
}

unsigned eglChooseConfig(void *display, const int *attributes, void **list, int room, int *found) {
    static void *all[MOST_CONFIGS];
    int count = 0;
    if (!enter()) return real.eglChooseConfig(display, attributes, list, room, found);
    begin_making("eglChooseConfig", 'k'), put_handle(DISPLAY, display), put_narrow_attributes(attributes);
    unsigned done = real.eglChooseConfig(display, attributes, list, room, found);
    if (done) real.eglChooseConfig(display, attributes, all, MOST_CONFIGS, &count);
    answer_configs(display, done, all, count);
    return done;
}

// The value of an attribute: named, bits, or a number.
static void answer_attribute(unsigned done, int attribute, long long value) {
    int named = attribute == EGL_CONFIG_CAVEAT || attribute == EGL_COLOR_BUFFER_TYPE || attribute == EGL_TRANSPARENT_TYPE ||
                attribute == EGL_NATIVE_VISUAL_TYPE || attribute == EGL_SWAP_BEHAVIOR || attribute == EGL_RENDER_BUFFER ||
                attribute == EGL_CONTEXT_CLIENT_TYPE || attribute == EGL_SYNC_TYPE || attribute == EGL_SYNC_STATUS ||
                attribute == EGL_SYNC_CONDITION;
    if (attribute == EGL_SURFACE_TYPE)
        value = (value & ~(long long)EGL_SWAP_BEHAVIOR_PRESERVED_BIT) | (value & EGL_SWAP_BEHAVIOR_PRESERVED_BIT ? 8 : 0);
    if (end_egl() && done) {
        if (named)
            log_egl_name(value);
        else
            log_number(value);
    } else if (me.egl_error == EGL_SUCCESS)
        log_text("0");
    close_line();
    leave();
}

unsigned eglGetConfigAttrib(void *display, void *config, int attribute, int *value) {
    if (!enter()) return real.eglGetConfigAttrib(display, config, attribute, value);
    begin("eglGetConfigAttrib"), put_handle(DISPLAY, display), put_config(config), put_egl(attribute);
    unsigned done = real.eglGetConfigAttrib(display, config, attribute, value);
    answer_attribute(done, attribute, done ? *value : 0);
    return done;
}

// ---- surfaces

// Ends a line that makes an object.
static void *made(enum space space, void *handle) {
    if (end_egl()) log_unsigned((uint64_t)(uintptr_t)handle);
    if (handle != NULL) know_handle(space, handle);
    close_line();
    return handle;
}

static void *made_window(void *display, void *window, void *surface) {
    made(SURFACE, surface);
    int width = 0, height = 0;
    if (surface != NULL && real.eglQuerySurface(display, surface, EGL_WIDTH, &width) &&
        real.eglQuerySurface(display, surface, EGL_HEIGHT, &height))
        know_window(window_id(window), width, height);
    real.eglGetError();
    leave();
    return surface;
}

static void begin_window(void *display, void *config, void *window) {
    begin_making("eglCreateWindowSurface", 's'), put_handle(DISPLAY, display), put_config(config), put_number(window_id(window));
}

void *eglCreateWindowSurface(void *display, void *config, void *window, const int *attributes) {
    if (!enter()) return real.eglCreateWindowSurface(display, config, window, attributes);
    begin_window(display, config, window), put_narrow_attributes(attributes);
    return made_window(display, window, real.eglCreateWindowSurface(display, config, window, attributes));
}
void *eglCreatePlatformWindowSurface(void *display, void *config, void *window, const intptr_t *attributes) {
    if (!enter()) return more.eglCreatePlatformWindowSurface(display, config, window, attributes);
    begin_window(display, config, window), put_attributes(attributes);
    return made_window(display, window, more.eglCreatePlatformWindowSurface(display, config, window, attributes));
}
void *eglCreatePlatformWindowSurfaceEXT(void *display, void *config, void *window, const int *attributes) {
    if (!enter()) return more.eglCreatePlatformWindowSurfaceEXT(display, config, window, attributes);
    begin_window(display, config, window), put_narrow_attributes(attributes);
    return made_window(display, window, more.eglCreatePlatformWindowSurfaceEXT(display, config, window, attributes));
}
void *eglCreatePbufferSurface(void *display, void *config, const int *attributes) {
    if (!enter()) return real.eglCreatePbufferSurface(display, config, attributes);
    begin_making("eglCreatePbufferSurface", 's'), put_handle(DISPLAY, display), put_config(config), put_narrow_attributes(attributes);
    void *surface = made(SURFACE, real.eglCreatePbufferSurface(display, config, attributes));
    leave();
    return surface;
}

// A call that takes a display and an object.
#define OBJECT(name, space) \
    unsigned name(void *display, void *object) { \
        if (!enter()) return real.name(display, object); \
        begin(#name), put_handle(DISPLAY, display), put_handle(space, object); \
        unsigned done = real.name(display, object); \
        answer(done); \
        return done; \
    }
OBJECT(eglDestroySurface, SURFACE)
OBJECT(eglDestroyContext, CONTEXT)
OBJECT(eglDestroySync, SYNC)
OBJECT(eglDestroyImage, IMAGE)

unsigned eglSwapBuffers(void *display, void *surface) {
    if (!enter()) return real.eglSwapBuffers(display, surface);
    begin("eglSwapBuffers"), put_handle(DISPLAY, display), put_handle(SURFACE, surface);
    unsigned done = real.eglSwapBuffers(display, surface);
    if (end_egl())
        end_value(done);
    else
        close_line();
    leave_written();
    return done;
}

unsigned eglQuerySurface(void *display, void *surface, int attribute, int *value) {
    if (!enter()) return real.eglQuerySurface(display, surface, attribute, value);
    begin("eglQuerySurface"), put_handle(DISPLAY, display), put_handle(SURFACE, surface), put_egl(attribute);
    unsigned done = real.eglQuerySurface(display, surface, attribute, value);
    answer_attribute(done, attribute, done && value != NULL ? *value : 0);
    return done;
}

unsigned eglSurfaceAttrib(void *display, void *surface, int attribute, int value) {
    if (!enter()) return real.eglSurfaceAttrib(display, surface, attribute, value);
    begin("eglSurfaceAttrib"), put_handle(DISPLAY, display), put_handle(SURFACE, surface), put_egl(attribute);
    if (attribute == EGL_SWAP_BEHAVIOR)
        put_egl(value);
    else
        put_number(value);
    unsigned done = real.eglSurfaceAttrib(display, surface, attribute, value);
    answer(done);
    return done;
}

// ---- contexts

unsigned eglBindAPI(unsigned api) {
    if (!enter()) return real.eglBindAPI(api);
    begin("eglBindAPI"), put_egl(api);
    unsigned done = real.eglBindAPI(api);
    answer(done);
    return done;
}

unsigned eglQueryAPI(void) {
    if (!enter()) return real.eglQueryAPI();
    begin("eglQueryAPI");
    unsigned api = real.eglQueryAPI();
    if (end_egl()) log_egl_name(api);
    close_line();
    leave();
    return api;
}

void *eglCreateContext(void *display, void *config, void *share, const int *attributes) {
    if (!enter()) return real.eglCreateContext(display, config, share, attributes);
    begin_making("eglCreateContext", 'c'), put_handle(DISPLAY, display), put_config(config), put_handle(CONTEXT, share),
        put_narrow_attributes(attributes);
    void *context = made(CONTEXT, real.eglCreateContext(display, config, share, attributes));
    if (context != NULL) know_context(context, share);
    leave();
    return context;
}

// What is current is asked for, since a call that is refused may have changed it.
static void now_current(void) {
    know_current(real.eglGetCurrentContext());
    real.eglGetError();
}

unsigned eglMakeCurrent(void *display, void *draw, void *read, void *context) {
    if (!enter()) return real.eglMakeCurrent(display, draw, read, context);
    begin("eglMakeCurrent"), put_handle(DISPLAY, display), put_handle(SURFACE, draw), put_handle(SURFACE, read),
        put_handle(CONTEXT, context);
    unsigned done = real.eglMakeCurrent(display, draw, read, context);
    if (end_egl())
        end_value(done);
    else
        close_line();
    now_current();
    leave();
    return done;
}

unsigned eglReleaseThread(void) {
    if (!enter()) return real.eglReleaseThread();
    begin("eglReleaseThread");
    unsigned done = real.eglReleaseThread();
    if (end_egl())
        end_value(done);
    else
        close_line();
    now_current();
    leave_written();
    return done;
}

void *eglGetCurrentContext(void) {
    if (!enter()) return real.eglGetCurrentContext();
    begin("eglGetCurrentContext");
    void *context = real.eglGetCurrentContext();
    if (end_egl())
        end_handle(context);
    else
        close_line();
    leave();
    return context;
}

void *eglGetCurrentSurface(int which) {
    if (!enter()) return real.eglGetCurrentSurface(which);
    begin("eglGetCurrentSurface"), put_egl(which);
    void *surface = real.eglGetCurrentSurface(which);
    if (end_egl())
        end_handle(surface);
    else
        close_line();
    leave();
    return surface;
}

void *eglGetCurrentDisplay(void) {
    if (!enter()) return real.eglGetCurrentDisplay();
    begin("eglGetCurrentDisplay");
    void *display = real.eglGetCurrentDisplay();
    if (end_egl())
        end_handle(display);
    else
        close_line();
    leave();
    return display;
}

unsigned eglQueryContext(void *display, void *context, int attribute, int *value) {
    if (!enter()) return real.eglQueryContext(display, context, attribute, value);
    begin("eglQueryContext"), put_handle(DISPLAY, display), put_handle(CONTEXT, context), put_egl(attribute);
    unsigned done = real.eglQueryContext(display, context, attribute, value);
    answer_attribute(done, attribute, done && value != NULL ? *value : 0);
    return done;
}

unsigned eglWaitClient(void) {
    if (!enter()) return real.eglWaitClient();
    begin("eglWaitClient");
    unsigned done = real.eglWaitClient();
    answer(done);
    return done;
}

// ---- fences and images

static void begin_sync(void *display, unsigned type) { begin_making("eglCreateSync", 'y'), put_handle(DISPLAY, display), put_egl(type); }

static void *made_sync(void *sync) {
    made(SYNC, sync);
    leave();
    return sync;
}

void *eglCreateSync(void *display, unsigned type, const intptr_t *attributes) {
    if (!enter()) return real.eglCreateSync(display, type, attributes);
    begin_sync(display, type), put_attributes(attributes);
    return made_sync(real.eglCreateSync(display, type, attributes));
}
void *eglCreateSync64KHR(void *display, unsigned type, const intptr_t *attributes) {
    if (!enter()) return more.eglCreateSync64KHR(display, type, attributes);
    begin_sync(display, type), put_attributes(attributes);
    return made_sync(more.eglCreateSync64KHR(display, type, attributes));
}
void *eglCreateSyncKHR(void *display, unsigned type, const int *attributes) {
    if (!enter()) return more.eglCreateSyncKHR(display, type, attributes);
    begin_sync(display, type), put_narrow_attributes(attributes);
    return made_sync(more.eglCreateSyncKHR(display, type, attributes));
}

// The one call that others don't wait for: its line is put in where it comes back.
static int client_wait(int (*wait)(void *, void *, int, uint64_t), void *display, void *sync, int flags, uint64_t timeout) {
    if (!enter()) return wait(display, sync, flags, timeout);
    begin("eglClientWaitSync"), put_handle(DISPLAY, display), put_handle(SYNC, sync), put_number(flags);
    if ((int64_t)timeout < 0)
        log_text(" EGL_FOREVER");
    else
        put_number((int64_t)timeout);
    char *line = log_take();
    log_waits(line);
    leave();
    int answer = wait(display, sync, flags, timeout);
    log_waits(NULL);
    if (!enter()) return answer;
    log_open(), log_text(line);
    free(line);
    if (end_egl()) {
        if (answer == 0)
            log_text("0");
        else
            log_egl_name(answer);
    }
    close_line();
    leave();
    return answer;
}
int eglClientWaitSync(void *display, void *sync, int flags, uint64_t timeout) {
    return enter()                                                            ? leave(),
           client_wait(real.eglClientWaitSync, display, sync, flags, timeout) : real.eglClientWaitSync(display, sync, flags, timeout);
}
int eglClientWaitSyncKHR(void *display, void *sync, int flags, uint64_t timeout) {
    return enter()                                                               ? leave(),
           client_wait(more.eglClientWaitSyncKHR, display, sync, flags, timeout) : more.eglClientWaitSyncKHR(display, sync, flags, timeout);
}

static void begin_wait(void *display, void *sync, int flags) {
    begin("eglWaitSync"), put_handle(DISPLAY, display), put_handle(SYNC, sync), put_number(flags);
}
unsigned eglWaitSync(void *display, void *sync, int flags) {
    if (!enter()) return real.eglWaitSync(display, sync, flags);
    begin_wait(display, sync, flags);
    unsigned done = real.eglWaitSync(display, sync, flags);
    answer(done);
    return done;
}
int eglWaitSyncKHR(void *display, void *sync, int flags) {
    if (!enter()) return more.eglWaitSyncKHR(display, sync, flags);
    begin_wait(display, sync, flags);
    int done = more.eglWaitSyncKHR(display, sync, flags);
    answer(done);
    return done;
}

static void begin_sync_query(void *display, void *sync, int attribute) {
    begin("eglGetSyncAttrib"), put_handle(DISPLAY, display), put_handle(SYNC, sync), put_egl(attribute);
}
unsigned eglGetSyncAttrib(void *display, void *sync, int attribute, intptr_t *value) {
    if (!enter()) return real.eglGetSyncAttrib(display, sync, attribute, value);
    begin_sync_query(display, sync, attribute);
    unsigned done = real.eglGetSyncAttrib(display, sync, attribute, value);
    answer_attribute(done, attribute, done ? *value : 0);
    return done;
}
unsigned eglGetSyncAttribKHR(void *display, void *sync, int attribute, int *value) {
    if (!enter()) return more.eglGetSyncAttribKHR(display, sync, attribute, value);
    begin_sync_query(display, sync, attribute);
    unsigned done = more.eglGetSyncAttribKHR(display, sync, attribute, value);
    answer_attribute(done, attribute, done ? *value : 0);
    return done;
}

static void begin_image(void *display, void *context, unsigned target, void *buffer) {
    begin_making("eglCreateImage", 'i'), put_handle(DISPLAY, display), put_handle(CONTEXT, context), put_egl(target);
    put_name(target == EGL_GL_RENDERBUFFER ? RENDERBUFFER : TEXTURE, (unsigned)(uintptr_t)buffer);
}
void *eglCreateImage(void *display, void *context, unsigned target, void *buffer, const intptr_t *attributes) {
    if (!enter()) return real.eglCreateImage(display, context, target, buffer, attributes);
    begin_image(display, context, target, buffer), put_attributes(attributes);
    void *image = made(IMAGE, real.eglCreateImage(display, context, target, buffer, attributes));
    leave();
    return image;
}
void *eglCreateImageKHR(void *display, void *context, unsigned target, void *buffer, const int *attributes) {
    if (!enter()) return more.eglCreateImageKHR(display, context, target, buffer, attributes);
    begin_image(display, context, target, buffer), put_narrow_attributes(attributes);
    void *image = made(IMAGE, more.eglCreateImageKHR(display, context, target, buffer, attributes));
    leave();
    return image;
}
#define OLD_OBJECT(name, old, space) \
    unsigned old(void *display, void *object) { \
        if (!enter()) return more.old(display, object); \
        begin(#name), put_handle(DISPLAY, display), put_handle(space, object); \
        unsigned done = more.old(display, object); \
        answer(done); \
        return done; \
    }
OLD_OBJECT(eglDestroySync, eglDestroySyncKHR, SYNC)
OLD_OBJECT(eglDestroyImage, eglDestroyImageKHR, IMAGE)
