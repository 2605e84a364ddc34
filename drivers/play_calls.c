// The calls of a line, made over the driver.
#include <pthread.h>
#include <stdlib.h>
#include <string.h>

#include "egl_words.h"
#include "play.h"
#include "windows.h"

#define HANDLE_OF(place) ((void *)(intptr_t)number[place])
#define INT(place) ((int)number[place])
#define ENUM(place) ((unsigned)number[place])

static void handle(struct answer *answer, void *made) { answer->value = (uint64_t)(uintptr_t)made, answer->how = HANDLE; }

// An integer of the driver: negative ones keep their sign.
static void integer(struct answer *answer, int value, enum how how) { answer->value = (uint64_t)(int64_t)value, answer->how = how; }

// The bits of EGL_SURFACE_TYPE are this project's own.
static int surface_bits(int value) {
    return (value & ~EGL_SWAP_BEHAVIOR_PRESERVED_BIT) | (value & EGL_SWAP_BEHAVIOR_PRESERVED_BIT ? 8 : 0);
}

static void config_value(struct answer *answer, int attribute, int value) {
    int named = attribute == EGL_CONFIG_CAVEAT || attribute == EGL_COLOR_BUFFER_TYPE || attribute == EGL_TRANSPARENT_TYPE ||
                attribute == EGL_NATIVE_VISUAL_TYPE;
    integer(answer, attribute == EGL_SURFACE_TYPE ? surface_bits(value) : value, named ? EGL_NAME : PLAIN);
}

static void object_value(struct answer *answer, int attribute, int value) {
    int named = attribute == EGL_SWAP_BEHAVIOR || attribute == EGL_RENDER_BUFFER || attribute == EGL_CONTEXT_CLIENT_TYPE ||
                attribute == EGL_SYNC_TYPE || attribute == EGL_SYNC_STATUS || attribute == EGL_SYNC_CONDITION;
    integer(answer, value, named ? EGL_NAME : PLAIN);
}

static void configs(struct answer *answer, void *display, const int *attributes) {
    static _Thread_local void *found[MOST_CONFIGS];
    int count = 0;
    if (attributes == NULL)
        answer->value = play.calls.eglGetConfigs(display, found, MOST_CONFIGS, &count);
    else
        answer->value = play.calls.eglChooseConfig(display, attributes, found, MOST_CONFIGS, &count);
    answer->error = (unsigned)play.calls.eglGetError();
    if (!answer->value) return;
    answer->list = calloc((size_t)count + 1, sizeof *answer->list);
    for (; answer->list != NULL && answer->count < count; answer->count++) {
        int id = 0;
        play.calls.eglGetConfigAttrib(display, found[answer->count], EGL_CONFIG_ID, &id);
        answer->list[answer->count] = (uint64_t)id;
    }
}

// ---- windows

static struct window_state *window_of(int64_t id, int64_t *width, int64_t *height) {
    for (int k = 0; k < play.trace.windows; k++)
        if (play.trace.window[k].id == id) {
            *width = play.trace.window[k].width, *height = play.trace.window[k].height;
            return &play.windows[k];
        }
    return NULL;
}

static int config_attribute(void *display, void *config, int attribute) {
    int value = 0;
    play.calls.eglGetConfigAttrib(display, config, attribute, &value);
    return value;
}

// A window of the platform is made for the first config that asks for it, and again for another one as long as it has no surface.
static void prepare_window(struct window_state *window, void *display, void *config, int width, int height) {
    int visual = config_attribute(display, config, EGL_NATIVE_VISUAL_ID), alpha = config_attribute(display, config, EGL_ALPHA_SIZE);
    if (window->native != 0 && (window_in_use(window) || (window->visual == visual && window->alpha == alpha))) return;
    *window = (struct window_state){.native = make_window(visual, alpha, width, height), .visual = visual, .alpha = alpha};
}

static void window_surface(const struct request *request, struct answer *answer) {
    const int64_t *number = request->number;
    int64_t width, height;
    struct window_state *window = window_of(number[2], &width, &height);
    if (window != NULL && has_windows()) {
        prepare_window(window, HANDLE_OF(0), request->config, (int)width, (int)height);
        void *surface = play.calls.eglCreateWindowSurface(HANDLE_OF(0), request->config, (void *)window->native, request->list);
        if (surface != NULL) window->display = HANDLE_OF(0), window->surface = surface, window->valid = 1;
        handle(answer, surface);
        return;
    }
    if (window == NULL) {
        handle(answer, play.calls.eglCreateWindowSurface(HANDLE_OF(0), request->config, NULL, request->list));
        return;
    }
    int attributes[] = {EGL_WIDTH, (int)width, EGL_HEIGHT, (int)height, EGL_NONE};
    void *surface = play.calls.eglCreatePbufferSurface(HANDLE_OF(0), request->config, attributes);
    if (surface != NULL) window->display = HANDLE_OF(0), window->surface = surface, window->valid = 1;
    handle(answer, surface);
}

static void forget_surface(void *display, void *surface) {
    for (int k = 0; k < play.trace.windows; k++)
        if (play.windows[k].display == display && (surface == NULL || play.windows[k].surface == surface)) play.windows[k].valid = 0;
}

// What a window would show: the pixels of the pbuffer in its place, which a swap leaves as they are.
static void keep_front(struct player *player, void *display, void *surface) {
    const struct calls *calls = &play.calls;
    int k = 0, framebuffer = 0, alignment = 4;
    while (k < play.trace.windows && !(play.windows[k].surface == surface && play.windows[k].display == display)) k++;
    if (k == play.trace.windows || player->draw != surface || player->context == NULL) return;
    if (has_windows()) {
        play.windows[k].swapped = 1;
        return;
    }
    const struct window *size = &play.trace.window[k];
    unsigned char *front = play.windows[k].front;
    if (front == NULL) front = play.windows[k].front = calloc((size_t)(4 * size->width * size->height), 1);
    if (front == NULL) return;
    if (player->read != surface) calls->eglMakeCurrent(display, surface, surface, player->context);
    calls->glGetIntegerv(GL_FRAMEBUFFER_BINDING_OES, &framebuffer);
    calls->glGetIntegerv(GL_PACK_ALIGNMENT, &alignment);
    if (framebuffer != 0) calls->glBindFramebufferOES(GL_FRAMEBUFFER_OES, 0);
    if (alignment != 4) calls->glPixelStorei(GL_PACK_ALIGNMENT, 4);
    calls->glReadPixels(0, 0, (int)size->width, (int)size->height, GL_RGBA, GL_UNSIGNED_BYTE, front);
    if (alignment != 4) calls->glPixelStorei(GL_PACK_ALIGNMENT, alignment);
    if (framebuffer != 0) calls->glBindFramebufferOES(GL_FRAMEBUFFER_OES, (unsigned)framebuffer);
    if (player->read != surface) calls->eglMakeCurrent(display, surface, player->read, player->context);
    calls->glGetError();
    calls->eglGetError();
}

// ---- EGL

static void perform_egl(const struct request *request, struct answer *answer) {
    const struct calls *calls = &play.calls;
    const int64_t *number = request->number;
    int value = 0;
    intptr_t wide = 0;
    switch (request->line->call) {
    case CALL_eglGetDisplay: handle(answer, calls->eglGetDisplay(number[0] == 0 ? native_display() : HANDLE_OF(0))); break;
    case CALL_eglInitialize: answer->value = calls->eglInitialize(HANDLE_OF(0), NULL, NULL); break;
    case CALL_eglTerminate: answer->value = calls->eglTerminate(HANDLE_OF(0)); break;
    case CALL_eglGetConfigs: configs(answer, HANDLE_OF(0), NULL); break;
    case CALL_eglChooseConfig: configs(answer, HANDLE_OF(0), request->list); break;
    case CALL_eglGetConfigAttrib:
        answer->value = calls->eglGetConfigAttrib(HANDLE_OF(0), request->config, INT(2), &value);
        if (answer->value == 1) config_value(answer, INT(2), value);
        break;
    case CALL_eglCreateWindowSurface: window_surface(request, answer); break;
    case CALL_eglCreatePbufferSurface: handle(answer, calls->eglCreatePbufferSurface(HANDLE_OF(0), request->config, request->list)); break;
    case CALL_eglDestroySurface: answer->value = calls->eglDestroySurface(HANDLE_OF(0), HANDLE_OF(1)); break;
    case CALL_eglQuerySurface:
        answer->value = calls->eglQuerySurface(HANDLE_OF(0), HANDLE_OF(1), INT(2), &value);
        if (answer->value == 1) object_value(answer, INT(2), value);
        break;
    case CALL_eglSurfaceAttrib: answer->value = calls->eglSurfaceAttrib(HANDLE_OF(0), HANDLE_OF(1), INT(2), INT(3)); break;
    case CALL_eglBindAPI: answer->value = calls->eglBindAPI(ENUM(0)); break;
    case CALL_eglQueryAPI: integer(answer, (int)calls->eglQueryAPI(), EGL_NAME); break;
    case CALL_eglCreateContext: handle(answer, calls->eglCreateContext(HANDLE_OF(0), request->config, HANDLE_OF(2), request->list)); break;
    case CALL_eglDestroyContext: answer->value = calls->eglDestroyContext(HANDLE_OF(0), HANDLE_OF(1)); break;
    case CALL_eglMakeCurrent: answer->value = calls->eglMakeCurrent(HANDLE_OF(0), HANDLE_OF(1), HANDLE_OF(2), HANDLE_OF(3)); break;
    case CALL_eglGetCurrentContext: handle(answer, calls->eglGetCurrentContext()); break;
    case CALL_eglGetCurrentSurface: handle(answer, calls->eglGetCurrentSurface(INT(0))); break;
    case CALL_eglGetCurrentDisplay: handle(answer, calls->eglGetCurrentDisplay()); break;
    case CALL_eglQueryContext:
        answer->value = calls->eglQueryContext(HANDLE_OF(0), HANDLE_OF(1), INT(2), &value);
        if (answer->value == 1) object_value(answer, INT(2), value);
        break;
    case CALL_eglSwapBuffers: answer->value = calls->eglSwapBuffers(HANDLE_OF(0), HANDLE_OF(1)); break;
    case CALL_eglWaitClient: answer->value = calls->eglWaitClient(); break;
    case CALL_eglReleaseThread: answer->value = calls->eglReleaseThread(); break;
    case CALL_eglCreateSync: handle(answer, calls->eglCreateSync(HANDLE_OF(0), ENUM(1), request->wide)); break;
    case CALL_eglDestroySync: answer->value = calls->eglDestroySync(HANDLE_OF(0), HANDLE_OF(1)); break;
    case CALL_eglClientWaitSync:
        integer(answer, calls->eglClientWaitSync(HANDLE_OF(0), HANDLE_OF(1), INT(2), (uint64_t)number[3]), EGL_NAME);
        break;
    case CALL_eglWaitSync: answer->value = calls->eglWaitSync(HANDLE_OF(0), HANDLE_OF(1), INT(2)); break;
    case CALL_eglGetSyncAttrib:
        answer->value = calls->eglGetSyncAttrib(HANDLE_OF(0), HANDLE_OF(1), INT(2), &wide);
        if (answer->value == 1) object_value(answer, INT(2), (int)wide);
        break;
    case CALL_eglCreateImage:
        handle(answer, calls->eglCreateImage(HANDLE_OF(0), HANDLE_OF(1), ENUM(2), HANDLE_OF(3), request->wide));
        break;
    case CALL_eglDestroyImage: answer->value = calls->eglDestroyImage(HANDLE_OF(0), HANDLE_OF(1)); break;
    default: break;
    }
}

// What is current behind a call that may change it, and what became of windows.
static void after_egl(const struct request *request, const struct answer *answer, struct player *player) {
    const int64_t *number = request->number;
    int done = answer->error == EGL_SUCCESS && answer->value == 1;
    switch (request->line->call) {
    case CALL_eglTerminate:
        if (done) forget_surface(HANDLE_OF(0), NULL);
        break;
    case CALL_eglDestroySurface:
        if (done) forget_surface(HANDLE_OF(0), HANDLE_OF(1));
        return;
    case CALL_eglSwapBuffers:
        if (done && !play.is_free) keep_front(player, HANDLE_OF(0), HANDLE_OF(1));
        return;
    case CALL_eglMakeCurrent:
    case CALL_eglReleaseThread: break;
    default: return;
    }
    player->context = play.calls.eglGetCurrentContext();
    player->draw = play.calls.eglGetCurrentSurface(EGL_DRAW);
    player->read = play.calls.eglGetCurrentSurface(EGL_READ);
    play.calls.eglGetError();
}

// ---- OpenGL ES

// The errors that contexts keep, since each is asked for as soon as it is there.
static struct kept {
    void *context;
    unsigned error;
    struct kept *next;
} * kept;
static pthread_mutex_t kept_lock = PTHREAD_MUTEX_INITIALIZER;

static unsigned *kept_error(void *context) {
    pthread_mutex_lock(&kept_lock);
    struct kept *found = kept;
    while (found != NULL && found->context != context) found = found->next;
    if (found == NULL && (found = malloc(sizeof *found)) != NULL) *found = (struct kept){context, 0, kept}, kept = found;
    pthread_mutex_unlock(&kept_lock);
    return found == NULL ? NULL : &found->error;
}

static void names(struct answer *answer, void (*generate)(int, unsigned *), int count) {
    unsigned *made = calloc(count > 0 ? (size_t)count : 1, sizeof *made);
    answer->list = calloc(count > 0 ? (size_t)count : 1, sizeof *answer->list);
    if (made != NULL && answer->list != NULL) {
        generate(count, made);
        for (int k = 0; k < count; k++) answer->list[k] = made[k];
        answer->count = count > 0 ? count : 0;
    }
    free(made);
}

static size_t pixel_size(unsigned format, unsigned type) {
    if (type != GL_UNSIGNED_BYTE)
        return type == GL_UNSIGNED_SHORT_5_6_5 || type == GL_UNSIGNED_SHORT_4_4_4_4 || type == GL_UNSIGNED_SHORT_5_5_5_1 ? 2 : 16;
    return format == GL_ALPHA || format == GL_LUMINANCE ? 1 : format == GL_LUMINANCE_ALPHA ? 2 : format == GL_RGB ? 3 : 4;
}

static void pixels(const struct request *request, struct answer *answer, const struct player *player) {
    const int64_t *number = request->number;
    int alignment = 4;
    if (player->context != NULL) play.calls.glGetIntegerv(GL_PACK_ALIGNMENT, &alignment);
    size_t columns = number[2] > 0 ? (size_t)number[2] : 0, rows = number[3] > 0 ? (size_t)number[3] : 0;
    size_t row = (columns * pixel_size(ENUM(4), ENUM(5)) + (size_t)alignment - 1) / (size_t)alignment * (size_t)alignment;
    answer->size = row * rows;
    answer->bytes = answer->size < (size_t)1 << 32 ? calloc(answer->size + 64, 1) : NULL;
    play.calls.glReadPixels(INT(0), INT(1), INT(2), INT(3), ENUM(4), ENUM(5), answer->bytes);
}

static void perform_textures(const struct request *request) {
    const struct calls *calls = &play.calls;
    const int64_t *number = request->number;
    const void *bytes = request->bytes;
    switch (request->line->call) {
    case CALL_glTexParameterx: calls->glTexParameterx(ENUM(0), ENUM(1), INT(2)); break;
    case CALL_glTexParameteriv: calls->glTexParameteriv(ENUM(0), ENUM(1), request->list); break;
    case CALL_glTexImage2D: calls->glTexImage2D(ENUM(0), INT(1), INT(2), INT(3), INT(4), INT(5), ENUM(6), ENUM(7), bytes); break;
    case CALL_glTexSubImage2D: calls->glTexSubImage2D(ENUM(0), INT(1), INT(2), INT(3), INT(4), INT(5), ENUM(6), ENUM(7), bytes); break;
    case CALL_glCopyTexImage2D: calls->glCopyTexImage2D(ENUM(0), INT(1), ENUM(2), INT(3), INT(4), INT(5), INT(6), INT(7)); break;
    case CALL_glCopyTexSubImage2D: calls->glCopyTexSubImage2D(ENUM(0), INT(1), INT(2), INT(3), INT(4), INT(5), INT(6), INT(7)); break;
    case CALL_glBufferData: calls->glBufferData(ENUM(0), (intptr_t)number[1], bytes, ENUM(2)); break;
    case CALL_glBufferSubData: calls->glBufferSubData(ENUM(0), (intptr_t)number[1], (intptr_t)number[2], bytes); break;
    case CALL_glRenderbufferStorageOES: calls->glRenderbufferStorageOES(ENUM(0), ENUM(1), INT(2), INT(3)); break;
    case CALL_glFramebufferTexture2DOES: calls->glFramebufferTexture2DOES(ENUM(0), ENUM(1), ENUM(2), ENUM(3), INT(4)); break;
    case CALL_glFramebufferRenderbufferOES: calls->glFramebufferRenderbufferOES(ENUM(0), ENUM(1), ENUM(2), ENUM(3)); break;
    case CALL_glEGLImageTargetTexture2DOES: calls->glEGLImageTargetTexture2DOES(ENUM(0), HANDLE_OF(1)); break;
    case CALL_glEGLImageTargetRenderbufferStorageOES: calls->glEGLImageTargetRenderbufferStorageOES(ENUM(0), HANDLE_OF(1)); break;
    default: break;
    }
}

static void perform_names(const struct request *request, struct answer *answer) {
    const struct calls *calls = &play.calls;
    const int64_t *number = request->number;
    const unsigned *list = (const unsigned *)request->list;
    switch (request->line->call) {
    case CALL_glGenTextures: names(answer, calls->glGenTextures, INT(0)); break;
    case CALL_glGenBuffers: names(answer, calls->glGenBuffers, INT(0)); break;
    case CALL_glGenRenderbuffersOES: names(answer, calls->glGenRenderbuffersOES, INT(0)); break;
    case CALL_glGenFramebuffersOES: names(answer, calls->glGenFramebuffersOES, INT(0)); break;
    case CALL_glDeleteTextures: calls->glDeleteTextures(request->count, list); break;
    case CALL_glDeleteBuffers: calls->glDeleteBuffers(request->count, list); break;
    case CALL_glDeleteRenderbuffersOES: calls->glDeleteRenderbuffersOES(request->count, list); break;
    case CALL_glDeleteFramebuffersOES: calls->glDeleteFramebuffersOES(request->count, list); break;
    case CALL_glIsTexture: answer->value = calls->glIsTexture(ENUM(0)); break;
    case CALL_glIsBuffer: answer->value = calls->glIsBuffer(ENUM(0)); break;
    case CALL_glIsRenderbufferOES: answer->value = calls->glIsRenderbufferOES(ENUM(0)); break;
    case CALL_glIsFramebufferOES: answer->value = calls->glIsFramebufferOES(ENUM(0)); break;
    case CALL_glBindTexture: calls->glBindTexture(ENUM(0), ENUM(1)); break;
    case CALL_glBindBuffer: calls->glBindBuffer(ENUM(0), ENUM(1)); break;
    case CALL_glBindRenderbufferOES: calls->glBindRenderbufferOES(ENUM(0), ENUM(1)); break;
    case CALL_glBindFramebufferOES: calls->glBindFramebufferOES(ENUM(0), ENUM(1)); break;
    default: perform_textures(request); break;
    }
}

#define CURRENT_COLOR 0x0B00

static void ask_colour(void) {
    int colour[4];
    if (play.asks_colour) play.calls.glGetIntegerv(CURRENT_COLOR, colour);
}

static void perform_gl(const struct request *request, struct answer *answer, const struct player *player) {
    const struct calls *calls = &play.calls;
    const int64_t *number = request->number;
    int value[16] = {0};
    switch (request->line->call) {
    case CALL_glFlush: calls->glFlush(); break;
    case CALL_glFinish: calls->glFinish(); break;
    case CALL_glEnable: calls->glEnable(ENUM(0)); break;
    case CALL_glDisable: calls->glDisable(ENUM(0)); break;
    case CALL_glScissor: calls->glScissor(INT(0), INT(1), INT(2), INT(3)); break;
    case CALL_glViewport: calls->glViewport(INT(0), INT(1), INT(2), INT(3)); break;
    case CALL_glClearColorx: calls->glClearColorx(INT(0), INT(1), INT(2), INT(3)); break;
    case CALL_glColor4x: calls->glColor4x(INT(0), INT(1), INT(2), INT(3)); break;
    case CALL_glClearDepthx: calls->glClearDepthx(INT(0)); break;
    case CALL_glClearStencil: calls->glClearStencil(INT(0)); break;
    case CALL_glColorMask: calls->glColorMask(number[0] != 0, number[1] != 0, number[2] != 0, number[3] != 0); break;
    case CALL_glTexEnvx: calls->glTexEnvx(ENUM(0), ENUM(1), INT(2)); break;
    case CALL_glPixelStorei: calls->glPixelStorei(ENUM(0), INT(1)); break;
    case CALL_glGetIntegerv: calls->glGetIntegerv(ENUM(0), value), integer(answer, value[INT(1)], PLAIN); break;
    case CALL_glClear: calls->glClear(ENUM(0)); break;
    case CALL_glReadPixels: pixels(request, answer, player); break;
    case CALL_glDrawTexiOES: ask_colour(), calls->glDrawTexiOES(INT(0), INT(1), INT(2), INT(3), INT(4)); break;
    case CALL_glDrawTexxOES: ask_colour(), calls->glDrawTexxOES(INT(0), INT(1), INT(2), INT(3), INT(4)); break;
    case CALL_glGetBufferParameteriv:
        calls->glGetBufferParameteriv(ENUM(0), ENUM(1), value), integer(answer, value[0], ENUM(1) == GL_BUFFER_USAGE ? GL_NAME : PLAIN);
        break;
    case CALL_glGetRenderbufferParameterivOES:
        calls->glGetRenderbufferParameterivOES(ENUM(0), ENUM(1), value), integer(answer, value[0], PLAIN);
        break;
    case CALL_glCheckFramebufferStatusOES:
        integer(answer, (int)calls->glCheckFramebufferStatusOES(ENUM(0)), GL_NAME);
        if (answer->value == 0) answer->how = PLAIN;
        break;
    case CALL_glGetFramebufferAttachmentParameterivOES:
        calls->glGetFramebufferAttachmentParameterivOES(ENUM(0), ENUM(1), ENUM(2), value);
        integer(answer, value[0], ENUM(2) == GL_FRAMEBUFFER_ATTACHMENT_OBJECT_TYPE_OES ? GL_NAME : PLAIN);
        break;
    default: perform_names(request, answer); break;
    }
}

static void perform_gl_error(struct answer *answer, const struct player *player) {
    answer->value = play.calls.glGetError();
    unsigned *error = player->context == NULL ? NULL : kept_error(player->context);
    if (error == NULL) return;
    if (*error != 0) answer->value = *error;
    answer->how = GL_ERROR;
    *error = 0;
}

// Asks for the error. Without a current context nobody has one, and no call answers anything.
static void after_gl(struct answer *answer, const struct player *player) {
    unsigned first = 0, *error = player->context == NULL ? NULL : kept_error(player->context);
    for (unsigned more = 1, k = 0; player->context != NULL && more != 0 && k < 8; k++) {
        more = play.calls.glGetError();
        if (first == 0) first = more;
    }
    answer->error = first;
    if (error != NULL && *error == 0) *error = first;
    if (first == 0 && player->context != NULL) return;
    answer->count = 0, answer->size = 0;
    if (first != 0 || answer->how != PLAIN) answer->value = 0, answer->how = PLAIN;
}

void perform(const struct request *request, struct answer *answer) {
    int call = request->line->call;
    struct player *player = &play.players[request->line->thread];
    *answer = (struct answer){0};
    if (call == CALL_eglGetError) {
        // The driver's own was asked for behind the call before.
        int now = play.calls.eglGetError();
        integer(answer, player->egl_error != EGL_SUCCESS ? player->egl_error : now, EGL_NAME);
        answer->error = player->egl_error = EGL_SUCCESS;
    } else if (call < FIRST_GL_CALL) {
        perform_egl(request, answer);
        if (answer->error == 0) answer->error = (unsigned)play.calls.eglGetError();
        player->egl_error = (int)answer->error;
        after_egl(request, answer, player);
        unsigned *error = call == CALL_eglCreateContext && answer->value != 0 ? kept_error((void *)(uintptr_t)answer->value) : NULL;
        if (error != NULL) *error = 0;
    } else if (call == CALL_glGetError)
        perform_gl_error(answer, player);
    else {
        perform_gl(request, answer, player);
        after_gl(answer, player);
    }
}
