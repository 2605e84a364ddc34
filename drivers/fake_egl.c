// A driver of the tests' own: displays, surfaces, contexts, fences and names of EGL, and of OpenGL ES what clears and reads pixels. Of all
// else it only notes what it was given. FAKE_SEEN=PATH: each call is written there with its arguments. FAKE_FAULT=WHAT[:CALL]: that call
// crashes, aborts, exits or hangs; or `pixel`, `display`, `configs`.
#define _GNU_SOURCE
#include <dlfcn.h>
#include <pthread.h>
#include <signal.h>
#include <stdint.h>
#include <stdio.h>
#include <stdlib.h>
#include <string.h>
#include <unistd.h>

#include "egl_words.h"

// By -DEGL_1_4 it is a driver whose fences and images are extensions, and that lacks a call.
#ifdef EGL_1_4
typedef int attribute_value;
#define EXTENSION(name) name##KHR
#else
typedef intptr_t attribute_value;
#define EXTENSION(name) name
#endif

enum kind { SURFACE = 1, CONTEXT, SYNC, IMAGE };

struct object {
    enum kind kind;
    int display, valid, config, width, height, signalled;
    struct object *context;
    unsigned char *pixels;
    // Of a context.
    unsigned error;
    int clear[4], scissor[4], scissors, pack, unpack, bound[5];
};

static const int configs[4][7] = {{21, 8, 8, 8, 8, 24, 8}, {22, 5, 6, 5, 0, 0, 0}, {23, 8, 8, 8, 8, 0, 0}, {24, 10, 10, 10, 2, 0, 0}};
static pthread_mutex_t lock = PTHREAD_MUTEX_INITIALIZER;
static pthread_cond_t signalled = PTHREAD_COND_INITIALIZER;
static struct object *objects[4096];
static int count, initialized[2], made[4];
static _Thread_local struct {
    int error;
    struct object *context, *draw, *read;
} mine = {.error = EGL_SUCCESS};

static void unlock(pthread_mutex_t **held) { pthread_mutex_unlock(*held); }
static pthread_mutex_t *hold(void) {
    pthread_mutex_lock(&lock);
    return &lock;
}

static int fault(const char *what, const char *call) {
    const char *asked = getenv("FAKE_FAULT");
    size_t length = strlen(what);
    return asked != NULL && strncmp(asked, what, length) == 0 &&
           (asked[length] == ':' ? call != NULL && strcmp(asked + length + 1, call) == 0 : asked[length] == 0);
}

// Notes a call, and goes wrong where it is told to.
static void note(const char *call, int arguments, const long long *number, const void *bytes, size_t size) {
    const char *path = getenv("FAKE_SEEN");
    FILE *seen = path != NULL && *path != 0 ? fopen(path, "a") : NULL;
    if (seen != NULL) {
        fputs(call, seen);
        for (int k = 0; k < arguments; k++) fprintf(seen, " %lld", number[k]);
        for (size_t k = 0; k < size; k++) fprintf(seen, k == 0 ? " #%02x" : "%02x", ((const unsigned char *)bytes)[k]);
        fputc('\n', seen);
        fclose(seen);
    }
    if (fault("crash", call)) raise(SIGSEGV);
    if (fault("overflow", call)) note(call, arguments, number, bytes, size);
    if (fault("abort", call)) abort();
    if (fault("exit", call)) exit(0);
    while (fault("hang", call)) pause();
}

#define BYTES(bytes, size, ...) \
    note(__func__, (int)(sizeof((long long[]){__VA_ARGS__}) / sizeof(long long)), (const long long[]){__VA_ARGS__}, bytes, size)
#define SEEN(...) BYTES(NULL, 0, __VA_ARGS__)
#define CALL(...) \
    pthread_mutex_t *held __attribute__((cleanup(unlock), unused)) = hold(); \
    SEEN(__VA_ARGS__)
#define NOTHING \
    pthread_mutex_t *held __attribute__((cleanup(unlock), unused)) = hold(); \
    note(__func__, 0, NULL, NULL, 0)
#define P(pointer) (long long)(intptr_t)(pointer)

// ---- EGL

static int refuse(int error) { return mine.error = error, 0; }
static int done(void) { return mine.error = EGL_SUCCESS, 1; }

// The display's number, -1 where it is none or isn't initialised.
static int display_of(void *display) {
    int number = display == (void *)0x1000 ? 0 : display == (void *)0x2000 ? 1 : -1;
    if (number < 0 || !initialized[number]) return refuse(number < 0 ? EGL_BAD_DISPLAY : EGL_NOT_INITIALIZED), -1;
    return number;
}

static const int *config_of(const void *config) {
    for (int k = 0; k < 4; k++)
        if (config == (const void *)configs[k]) return configs[k];
    return refuse(EGL_BAD_CONFIG), NULL;
}

static void *handle(const struct object *object) {
    for (int k = 0; k < count; k++)
        if (objects[k] == object) return (void *)(intptr_t)(0x10000 + 16 * k);
    return NULL;
}

static struct object *find(void *wanted, enum kind kind, int display, int error) {
    intptr_t place = ((intptr_t)wanted - 0x10000) / 16;
    struct object *object = place >= 0 && place < count && wanted == (void *)(0x10000 + 16 * place) ? objects[place] : NULL;
    if (object != NULL && object->valid && object->kind == kind && object->display == display) return object;
    return refuse(error), NULL;
}

static void *make(struct object object) {
    struct object *made_here = malloc(sizeof object);
    if (made_here == NULL || count == 4096) return refuse(EGL_BAD_ALLOC), NULL;
    *made_here = object;
    made_here->valid = 1;
    objects[count++] = made_here;
    done();
    return handle(made_here);
}

int eglGetError(void) {
    NOTHING;
    int error = mine.error;
    mine.error = EGL_SUCCESS;
    return error;
}
void *eglGetDisplay(void *native) {
    CALL(P(native));
    return native == NULL ? (void *)0x1000 : native == (void *)1 ? (void *)0x2000 : NULL;
}
void *eglGetPlatformDisplay(unsigned platform, void *native, const intptr_t *attributes) {
    CALL(platform, P(native), attributes != NULL);
    return (void *)0x1000;
}
unsigned eglInitialize(void *display, int *major, int *minor) {
    CALL(P(display));
    if (display != (void *)0x1000 && display != (void *)0x2000) return (unsigned)refuse(EGL_BAD_DISPLAY);
    if (fault("display", NULL)) return (unsigned)refuse(EGL_NOT_INITIALIZED);
    initialized[display == (void *)0x2000] = 1;
    if (major != NULL) *major = 1;
    if (minor != NULL) *minor = 5;
    return (unsigned)done();
}
unsigned eglTerminate(void *display) {
    CALL(P(display));
    if (display != (void *)0x1000 && display != (void *)0x2000) return (unsigned)refuse(EGL_BAD_DISPLAY);
    int number = display == (void *)0x2000;
    initialized[number] = 0;
    for (int k = 0; k < count; k++) objects[k]->valid &= objects[k]->display != number;
    return (unsigned)done();
}
unsigned eglChooseConfig(void *display, const int *attributes, void **list, int room, int *found) {
    pthread_mutex_t *held __attribute__((cleanup(unlock), unused)) = hold();
    size_t size = 0;
    while (attributes != NULL && attributes[size] != EGL_NONE) size += 2;
    BYTES((const unsigned char *)attributes, size * sizeof(int), P(display));
    if (display_of(display) < 0) return 0;
    *found = 0;
    for (int k = 0; k < 4 && !fault("configs", NULL); k++) {
        int fits = 1;
        for (size_t pair = 0; pair < size; pair += 2)
            if (attributes[pair] == EGL_DEPTH_SIZE) fits = configs[k][5] >= attributes[pair + 1];
        if (!fits) continue;
        if (list != NULL && *found >= room) break;
        if (list != NULL) list[*found] = (void *)(uintptr_t)configs[k];
        ++*found;
    }
    return (unsigned)done();
}
unsigned eglGetConfigs(void *display, void **list, int room, int *found) { return eglChooseConfig(display, NULL, list, room, found); }
unsigned eglGetConfigAttrib(void *display, void *wanted, int attribute, int *value) {
    pthread_mutex_t *held __attribute__((cleanup(unlock), unused)) = hold();
    static const int names[7] = {
        EGL_CONFIG_ID, EGL_RED_SIZE, EGL_GREEN_SIZE, EGL_BLUE_SIZE, EGL_ALPHA_SIZE, EGL_DEPTH_SIZE, EGL_STENCIL_SIZE};
    if (display_of(display) < 0) return 0;
    const int *config = config_of(wanted);
    if (config == NULL) return 0;
    SEEN(P(display), config[0], attribute);
    int k = 0;
    while (k < 7 && names[k] != attribute) k++;
    if (k < 7)
        *value = config[k];
    else if (attribute == EGL_SURFACE_TYPE)
        *value = EGL_PBUFFER_BIT | EGL_SWAP_BEHAVIOR_PRESERVED_BIT;
    else if (attribute == EGL_RENDERABLE_TYPE)
        *value = EGL_OPENGL_ES_BIT;
    else if (attribute == EGL_CONFIG_CAVEAT)
        *value = config[0] == 24 ? EGL_SLOW_CONFIG : EGL_NONE;
    else if (attribute == EGL_SAMPLES || attribute == EGL_LEVEL)
        *value = 0;
    else if (attribute == EGL_MIN_SWAP_INTERVAL)
        *value = -2;
    else
        return (unsigned)refuse(EGL_BAD_ATTRIBUTE);
    return (unsigned)done();
}

static void *surface(void *display, void *wanted, int width, int height) {
    int number = display_of(display);
    const int *config = number < 0 ? NULL : config_of(wanted);
    if (config == NULL) return NULL;
    if (width < 0 || height < 0) return refuse(EGL_BAD_PARAMETER), NULL;
    if (width > 4096 || height > 4096) return refuse(EGL_BAD_ALLOC), NULL;
    return make((struct object){.kind = SURFACE,
        .display = number,
        .config = config[0],
        .width = width,
        .height = height,
        .pixels = calloc((size_t)(4 * width * height) + 4, 1)});
}
void *eglCreateWindowSurface(void *display, void *config, void *window, const int *attributes) {
    CALL(P(display), P(window), attributes != NULL ? attributes[0] : 0);
    return window == NULL ? refuse(EGL_BAD_NATIVE_WINDOW), NULL : surface(display, config, 8, 4);
}
void *eglCreatePlatformWindowSurface(void *display, void *config, void *window, const intptr_t *attributes) {
    CALL(P(display), P(window), attributes != NULL ? attributes[0] : 0);
    return window == NULL ? refuse(EGL_BAD_NATIVE_WINDOW), NULL : surface(display, config, 8, 4);
}
void *eglCreatePbufferSurface(void *display, void *config, const int *attributes) {
    int width = 0, height = 0;
    CALL(P(display), attributes != NULL ? attributes[0] : 0, attributes != NULL && attributes[0] != EGL_NONE ? attributes[1] : 0);
    for (; attributes != NULL && *attributes != EGL_NONE; attributes += 2) {
        if (*attributes == EGL_WIDTH)
            width = attributes[1];
        else if (*attributes == EGL_HEIGHT)
            height = attributes[1];
        else if (*attributes != EGL_LARGEST_PBUFFER)
            return refuse(EGL_BAD_ATTRIBUTE), NULL;
    }
    return surface(display, config, width, height);
}

// A call that takes an object: its display, or 0.
#define OBJECT(kind, error, ...) \
    struct object *object; \
    int number; \
    CALL(P(display), P(wanted), __VA_ARGS__); \
    if ((number = display_of(display)) < 0 || (object = find(wanted, kind, number, error)) == NULL) return 0
unsigned eglDestroySurface(void *display, void *wanted) {
    OBJECT(SURFACE, EGL_BAD_SURFACE);
    return object->valid = 0, (unsigned)done();
}
unsigned eglDestroyContext(void *display, void *wanted) {
    OBJECT(CONTEXT, EGL_BAD_CONTEXT);
    return object->valid = 0, (unsigned)done();
}
unsigned EXTENSION(eglDestroyImage)(void *display, void *wanted) {
    OBJECT(IMAGE, EGL_BAD_PARAMETER);
    return object->valid = 0, (unsigned)done();
}
unsigned EXTENSION(eglDestroySync)(void *display, void *wanted) {
    OBJECT(SYNC, EGL_BAD_PARAMETER);
    return object->valid = 0, (unsigned)done();
}
unsigned eglSwapBuffers(void *display, void *wanted) {
    OBJECT(SURFACE, EGL_BAD_SURFACE);
    return (unsigned)(object == mine.draw ? done() : refuse(EGL_BAD_SURFACE));
}
unsigned eglQuerySurface(void *display, void *wanted, int attribute, int *value) {
    OBJECT(SURFACE, EGL_BAD_SURFACE, attribute);
    if (attribute == EGL_WIDTH)
        *value = object->width;
    else if (attribute == EGL_HEIGHT)
        *value = object->height;
    else if (attribute == EGL_CONFIG_ID)
        *value = object->config;
    else if (attribute == EGL_RENDER_BUFFER)
        *value = EGL_BACK_BUFFER;
    else if (attribute == EGL_SWAP_BEHAVIOR)
        *value = EGL_BUFFER_DESTROYED;
    else
        return (unsigned)refuse(EGL_BAD_ATTRIBUTE);
    return (unsigned)done();
}
unsigned eglSurfaceAttrib(void *display, void *wanted, int attribute, int value) {
    OBJECT(SURFACE, EGL_BAD_SURFACE, attribute, value);
    return (unsigned)(attribute != EGL_SWAP_BEHAVIOR || object == NULL                 ? refuse(EGL_BAD_ATTRIBUTE)
                      : value == EGL_BUFFER_PRESERVED || value == EGL_BUFFER_DESTROYED ? done()
                                                                                       : refuse(EGL_BAD_PARAMETER));
}
unsigned eglBindAPI(unsigned api) {
    CALL(api);
    return (unsigned)(api == EGL_OPENGL_ES_API ? done() : refuse(EGL_BAD_PARAMETER));
}
unsigned eglQueryAPI(void) {
    NOTHING;
    return EGL_OPENGL_ES_API;
}
void *eglCreateContext(void *display, void *wanted, void *share, const int *attributes) {
    CALL(P(display), P(share), attributes != NULL && attributes[0] != EGL_NONE ? attributes[1] : 1);
    int number = display_of(display);
    const int *config = number < 0 ? NULL : config_of(wanted);
    if (config == NULL || (share != NULL && find(share, CONTEXT, number, EGL_BAD_CONTEXT) == NULL)) return NULL;
    return make((struct object){.kind = CONTEXT, .display = number, .config = config[0], .pack = 4, .unpack = 4});
}

static void flush(const struct object *context) {
    for (int k = 0; k < count && context != NULL; k++)
        if (objects[k]->kind == SYNC && objects[k]->context == context) objects[k]->signalled = 1;
    pthread_cond_broadcast(&signalled);
}

unsigned eglMakeCurrent(void *display, void *draw, void *read, void *context) {
    CALL(P(display), P(draw), P(read), P(context));
    int number = display_of(display);
    if (number < 0) return 0;
    struct object *drawn = NULL, *fed = NULL, *used = NULL;
    if (draw != NULL && (drawn = find(draw, SURFACE, number, EGL_BAD_SURFACE)) == NULL) return 0;
    if (read != NULL && (fed = find(read, SURFACE, number, EGL_BAD_SURFACE)) == NULL) return 0;
    if (context != NULL && (used = find(context, CONTEXT, number, EGL_BAD_CONTEXT)) == NULL) return 0;
    flush(mine.context);
    mine.draw = drawn, mine.read = fed, mine.context = used;
    return (unsigned)done();
}
void *eglGetCurrentContext(void) {
    NOTHING;
    return mine.context == NULL ? NULL : handle(mine.context);
}
void *eglGetCurrentDisplay(void) {
    NOTHING;
    return mine.context == NULL ? NULL : mine.context->display == 0 ? (void *)0x1000 : (void *)0x2000;
}
void *eglGetCurrentSurface(int which) {
    CALL(which);
    if (which != EGL_DRAW && which != EGL_READ) return refuse(EGL_BAD_PARAMETER), NULL;
    const struct object *found = which == EGL_DRAW ? mine.draw : mine.read;
    return found == NULL ? NULL : handle(found);
}
unsigned eglQueryContext(void *display, void *wanted, int attribute, int *value) {
    OBJECT(CONTEXT, EGL_BAD_CONTEXT, attribute);
    if (attribute == EGL_CONFIG_ID)
        *value = object->config;
    else if (attribute == EGL_CONTEXT_CLIENT_TYPE)
        *value = EGL_OPENGL_ES_API;
    else if (attribute == EGL_CONTEXT_CLIENT_VERSION)
        *value = 1;
    else if (attribute == EGL_RENDER_BUFFER)
        *value = EGL_NONE;
    else
        return (unsigned)refuse(EGL_BAD_ATTRIBUTE);
    return (unsigned)done();
}
unsigned eglWaitClient(void) {
    NOTHING;
    flush(mine.context);
    return (unsigned)done();
}
unsigned eglReleaseThread(void) {
    NOTHING;
    flush(mine.context);
    mine.draw = mine.read = mine.context = NULL;
    return (unsigned)done();
}

static void *sync_of(void *display, unsigned type, int some) {
    int number = display_of(display);
    if (number < 0) return NULL;
    if (type != EGL_SYNC_FENCE || some) return refuse(EGL_BAD_ATTRIBUTE), NULL;
    if (mine.context == NULL) return refuse(EGL_BAD_MATCH), NULL;
    return make((struct object){.kind = SYNC, .display = number, .context = mine.context});
}
#ifndef EGL_1_4
void *eglCreateSync(void *display, unsigned type, const intptr_t *attributes) {
    CALL(P(display), type);
    return sync_of(display, type, attributes != NULL && attributes[0] != EGL_NONE);
}
#endif
void *eglCreateSyncKHR(void *display, unsigned type, const int *attributes) {
    CALL(P(display), type);
    return sync_of(display, type, attributes != NULL && attributes[0] != EGL_NONE);
}
// A wait without an end ends once the fence is signalled; each other asks once.
int EXTENSION(eglClientWaitSync)(void *display, void *wanted, int flags, uint64_t timeout) {
    OBJECT(SYNC, EGL_BAD_PARAMETER, flags, (long long)timeout);
    if (flags & 1) flush(mine.context);
    while (!object->signalled && timeout == UINT64_MAX) pthread_cond_wait(&signalled, &lock);
    done();
    return object->signalled ? EGL_CONDITION_SATISFIED : EGL_TIMEOUT_EXPIRED;
}
unsigned EXTENSION(eglWaitSync)(void *display, void *wanted, int flags) {
    OBJECT(SYNC, EGL_BAD_PARAMETER, flags);
    if (flags != 0) return (unsigned)refuse(EGL_BAD_PARAMETER);
    object->signalled = 1;
    return (unsigned)done();
}
unsigned EXTENSION(eglGetSyncAttrib)(void *display, void *wanted, int attribute, attribute_value *value) {
    OBJECT(SYNC, EGL_BAD_PARAMETER, attribute);
    if (attribute == EGL_SYNC_TYPE)
        *value = EGL_SYNC_FENCE;
    else if (attribute == EGL_SYNC_STATUS)
        *value = object->signalled ? EGL_SIGNALED : EGL_UNSIGNALED;
    else if (attribute == EGL_SYNC_CONDITION)
        *value = EGL_SYNC_PRIOR_COMMANDS_COMPLETE;
    else
        return (unsigned)refuse(EGL_BAD_ATTRIBUTE);
    return (unsigned)done();
}
void *EXTENSION(eglCreateImage)(void *display, void *context, unsigned target, void *buffer, const attribute_value *attributes) {
    CALL(P(display), P(context), target, P(buffer), attributes != NULL && attributes[0] != EGL_NONE ? attributes[1] : -1);
    int number = display_of(display);
    if (number < 0 || find(context, CONTEXT, number, EGL_BAD_CONTEXT) == NULL) return NULL;
    return make((struct object){.kind = IMAGE, .display = number});
}
const char *eglQueryString(void *display, int name) {
    CALL(P(display), name);
    return name == 0x3055 ? "EGL_KHR_fence_sync" : "fake";
}
unsigned eglSwapInterval(void *display, int interval) {
    CALL(P(display), interval);
    return (unsigned)done();
}

// ---- OpenGL ES

static void bad(unsigned error) {
    if (mine.context != NULL && mine.context->error == 0) mine.context->error = error;
}
#define GL(...) \
    CALL(__VA_ARGS__); \
    if (mine.context == NULL) return

unsigned glGetError(void) {
    NOTHING;
    if (mine.context == NULL) return 0;
    unsigned error = mine.context->error;
    mine.context->error = 0;
    return error;
}
void glFlush(void) {
    NOTHING;
    flush(mine.context);
}
void glFinish(void) {
    NOTHING;
    flush(mine.context);
}
static void able(unsigned name, int on) {
    if (name == GL_SCISSOR_TEST)
        mine.context->scissors = on;
    else if (name != GL_TEXTURE_2D && name != GL_DITHER)
        bad(GL_INVALID_ENUM);
}
void glEnable(unsigned name) {
    GL(name);
    able(name, 1);
}
void glDisable(unsigned name) {
    GL(name);
    able(name, 0);
}
void glScissor(int x, int y, int w, int h) {
    GL(x, y, w, h);
    if (w < 0 || h < 0)
        bad(GL_INVALID_VALUE);
    else
        memcpy(mine.context->scissor, (int[]){x, y, w, h}, 16);
}
void glViewport(int x, int y, int w, int h) {
    GL(x, y, w, h);
    if (w < 0 || h < 0) bad(GL_INVALID_VALUE);
}
void glClearColorx(int r, int g, int b, int a) {
    GL(r, g, b, a);
    memcpy(mine.context->clear, (int[]){r, g, b, a}, 16);
}
static int fixed(float number) { return (int)(number * 65536); }
void glClearColor(float r, float g, float b, float a) {
    GL(fixed(r), fixed(g), fixed(b), fixed(a));
    memcpy(mine.context->clear, (int[]){fixed(r), fixed(g), fixed(b), fixed(a)}, 16);
}
void glColor4x(int r, int g, int b, int a) { GL(r, g, b, a); }
void glColor4f(float r, float g, float b, float a) { GL(fixed(r), fixed(g), fixed(b), fixed(a)); }
void glColor4ub(unsigned char r, unsigned char g, unsigned char b, unsigned char a) { GL(r, g, b, a); }
void glClearDepthx(int depth) { GL(depth); }
void glClearDepthf(float depth) { GL(fixed(depth)); }
void glClearStencil(int stencil) { GL(stencil); }
void glColorMask(unsigned char r, unsigned char g, unsigned char b, unsigned char a) { GL(r, g, b, a); }
void glTexEnvx(unsigned target, unsigned name, int value) { GL(target, name, value); }
void glTexEnvi(unsigned target, unsigned name, int value) { GL(target, name, value); }
void glTexEnvf(unsigned target, unsigned name, float value) { GL(target, name, (long long)value); }
void glPixelStorei(unsigned name, int value) {
    GL(name, value);
    if (name != GL_PACK_ALIGNMENT && name != GL_UNPACK_ALIGNMENT)
        bad(GL_INVALID_ENUM);
    else if (value != 1 && value != 2 && value != 4 && value != 8)
        bad(GL_INVALID_VALUE);
    else
        *(name == GL_PACK_ALIGNMENT ? &mine.context->pack : &mine.context->unpack) = value;
}
void glGetIntegerv(unsigned name, int *value) {
    GL(name);
    const struct object *context = mine.context;
    switch (name) {
    case GL_PACK_ALIGNMENT: *value = context->pack; break;
    case GL_UNPACK_ALIGNMENT: *value = context->unpack; break;
    case GL_SCISSOR_BOX: memcpy(value, context->scissor, 16); break;
    case GL_TEXTURE_BINDING_2D: *value = context->bound[0]; break;
    case GL_ARRAY_BUFFER_BINDING: *value = context->bound[1]; break;
    case GL_RENDERBUFFER_BINDING_OES: *value = context->bound[2]; break;
    case GL_FRAMEBUFFER_BINDING_OES: *value = context->bound[3]; break;
    case GL_MAX_TEXTURE_SIZE: *value = 64; break;
    default: bad(GL_INVALID_ENUM);
    }
}
static unsigned char byte_of(int color) { return (unsigned char)(color <= 0 ? 0 : color >= 65536 ? 255 : (color * 255 + 32768) / 65536); }
void glClear(unsigned mask) {
    GL(mask);
    if ((mask & ~(unsigned)(GL_COLOR_BUFFER_BIT | GL_DEPTH_BUFFER_BIT | GL_STENCIL_BUFFER_BIT)) != 0)
        bad(GL_INVALID_VALUE);
    else if (mask & GL_COLOR_BUFFER_BIT && mine.draw != NULL) {
        const int *box = mine.context->scissor;
        for (int y = 0; y < mine.draw->height; y++)
            for (int x = 0; x < mine.draw->width; x++) {
                if (mine.context->scissors && (x < box[0] || y < box[1] || x >= box[0] + box[2] || y >= box[1] + box[3])) continue;
                for (int k = 0; k < 4; k++) mine.draw->pixels[4 * (y * mine.draw->width + x) + k] = byte_of(mine.context->clear[k]);
            }
    }
}
void glReadPixels(int x, int y, int w, int h, unsigned format, unsigned type, void *pixels) {
    GL(x, y, w, h, format, type);
    if (w < 0 || h < 0)
        bad(GL_INVALID_VALUE);
    else if (format != GL_RGBA || type != GL_UNSIGNED_BYTE)
        bad(GL_INVALID_ENUM);
    else if (mine.read != NULL) {
        size_t row = ((size_t)(4 * w) + (size_t)mine.context->pack - 1) / (size_t)mine.context->pack * (size_t)mine.context->pack;
        for (int j = 0; j < h; j++)
            for (int i = 0; i < w; i++) {
                int inside = x + i >= 0 && y + j >= 0 && x + i < mine.read->width && y + j < mine.read->height;
                unsigned char *to = (unsigned char *)pixels + (size_t)j * row + 4 * (size_t)i;
                if (inside)
                    memcpy(to, mine.read->pixels + 4 * ((y + j) * mine.read->width + x + i), 4);
                else
                    memset(to, 0, 4);
            }
        if (fault("pixel", NULL) && w > 0 && h > 0) ((unsigned char *)pixels)[4 * (w - 1) + 1] ^= 1;
    }
}
void glDrawTexiOES(int x, int y, int z, int w, int h) { GL(x, y, z, w, h); }
#ifndef EGL_1_4
void glDrawTexxOES(int x, int y, int z, int w, int h) { GL(x, y, z, w, h); }
#endif
void glDrawTexfOES(float x, float y, float z, float w, float h) { GL(fixed(x), fixed(y), fixed(z), fixed(w), fixed(h)); }
void glEnableClientState(unsigned name) { GL(name); }
void glDrawArrays(unsigned mode, int first, int many) { GL(mode, first, many); }
const unsigned char *glGetString(unsigned name) {
    CALL(name);
    return (const unsigned char *)"fake";
}

static void generate(int kind, int many, unsigned *names) {
    if (many < 0) bad(GL_INVALID_VALUE);
    for (int k = 0; k < many; k++) names[k] = (unsigned)(100 * (kind + 1) + ++made[kind]);
}
static unsigned char is_name(int kind, unsigned name) {
    return name > (unsigned)(100 * (kind + 1)) && name <= (unsigned)(100 * (kind + 1) + made[kind]);
}
#define NAMES(kind, generates, deletes, asks, binds) \
    void generates(int many, unsigned *names) { \
        GL(many); \
        generate(kind, many, names); \
    } \
    void deletes(int many, const unsigned *names) { \
        pthread_mutex_t *held __attribute__((cleanup(unlock), unused)) = hold(); \
        BYTES(names, (size_t)many * 4, many); \
    } \
    unsigned char asks(unsigned name) { \
        CALL(name); \
        return mine.context != NULL && is_name(kind, name); \
    } \
    void binds(unsigned target, unsigned name) { \
        GL(target, name); \
        if (target == GL_FOG) \
            bad(GL_INVALID_ENUM); \
        else \
            mine.context->bound[kind] = (int)name; \
    }
NAMES(0, glGenTextures, glDeleteTextures, glIsTexture, glBindTexture)
NAMES(1, glGenBuffers, glDeleteBuffers, glIsBuffer, glBindBuffer)
NAMES(2, glGenRenderbuffersOES, glDeleteRenderbuffersOES, glIsRenderbufferOES, glBindRenderbufferOES)
NAMES(3, glGenFramebuffersOES, glDeleteFramebuffersOES, glIsFramebufferOES, glBindFramebufferOES)

void glTexParameterx(unsigned target, unsigned name, int value) { GL(target, name, value); }
void glTexParameteri(unsigned target, unsigned name, int value) { GL(target, name, value); }
void glTexParameterf(unsigned target, unsigned name, float value) { GL(target, name, (long long)value); }
void glTexParameteriv(unsigned target, unsigned name, const int *v) { GL(target, name, v[0], v[1], v[2], v[3]); }
static size_t image_size(int w, int h, unsigned format, unsigned type, const void *bytes) {
    size_t pixel = type != GL_UNSIGNED_BYTE       ? 2
                   : format == GL_RGBA            ? 4
                   : format == GL_RGB             ? 3
                   : format == GL_LUMINANCE_ALPHA ? 2
                                                  : 1,
           unpack = mine.context == NULL ? 4 : (size_t)mine.context->unpack;
    return bytes == NULL || w < 0 || h < 0 ? 0 : ((size_t)w * pixel + unpack - 1) / unpack * unpack * (size_t)h;
}
void glTexImage2D(unsigned target, int level, int internal, int w, int h, int border, unsigned format, unsigned type, const void *bytes) {
    pthread_mutex_t *held __attribute__((cleanup(unlock), unused)) = hold();
    BYTES(bytes, image_size(w, h, format, type, bytes), target, level, internal, w, h, border, format, type, bytes != NULL);
}
void glTexSubImage2D(unsigned target, int level, int x, int y, int w, int h, unsigned format, unsigned type, const void *bytes) {
    pthread_mutex_t *held __attribute__((cleanup(unlock), unused)) = hold();
    BYTES(bytes, image_size(w, h, format, type, bytes), target, level, x, y, w, h, format, type, bytes != NULL);
}
void glCopyTexImage2D(unsigned target, int level, unsigned internal, int x, int y, int w, int h, int border) {
    GL(target, level, internal, x, y, w, h, border);
}
void glCopyTexSubImage2D(unsigned target, int level, int xoffset, int yoffset, int x, int y, int w, int h) {
    GL(target, level, xoffset, yoffset, x, y, w, h);
}
void glBufferData(unsigned target, intptr_t size, const void *bytes, unsigned usage) {
    pthread_mutex_t *held __attribute__((cleanup(unlock), unused)) = hold();
    BYTES(bytes, bytes != NULL && size > 0 ? (size_t)size : 0, target, size, usage, bytes != NULL);
    if (size < 0) bad(GL_INVALID_VALUE);
}
void glBufferSubData(unsigned target, intptr_t offset, intptr_t size, const void *bytes) {
    pthread_mutex_t *held __attribute__((cleanup(unlock), unused)) = hold();
    BYTES(bytes, bytes != NULL && size > 0 ? (size_t)size : 0, target, offset, size, bytes != NULL);
}
void glGetBufferParameteriv(unsigned target, unsigned name, int *value) {
    GL(target, name);
    *value = name == GL_BUFFER_USAGE ? GL_STATIC_DRAW : 12;
}
void glRenderbufferStorageOES(unsigned target, unsigned internal, int w, int h) { GL(target, internal, w, h); }
void glGetRenderbufferParameterivOES(unsigned target, unsigned name, int *value) {
    GL(target, name);
    *value = name == GL_RENDERBUFFER_WIDTH_OES ? 5 : 6;
}
void glFramebufferTexture2DOES(unsigned target, unsigned attachment, unsigned textarget, unsigned texture, int level) {
    GL(target, attachment, textarget, texture, level);
}
void glFramebufferRenderbufferOES(unsigned target, unsigned attachment, unsigned kind, unsigned renderbuffer) {
    GL(target, attachment, kind, renderbuffer);
}
unsigned glCheckFramebufferStatusOES(unsigned target) {
    CALL(target);
    if (target == GL_FRAMEBUFFER_OES) return mine.context == NULL ? 0 : GL_FRAMEBUFFER_COMPLETE_OES;
    bad(GL_INVALID_ENUM);
    return 0;
}
void glGetFramebufferAttachmentParameterivOES(unsigned target, unsigned attachment, unsigned name, int *value) {
    GL(target, attachment, name);
    *value = name == GL_FRAMEBUFFER_ATTACHMENT_OBJECT_NAME_OES ? 7 : attachment == GL_COLOR_ATTACHMENT0_OES ? GL_TEXTURE : 0;
}
void glEGLImageTargetTexture2DOES(unsigned target, void *image) { GL(target, P(image)); }
void glEGLImageTargetRenderbufferStorageOES(unsigned target, void *image) { GL(target, P(image)); }

void *eglGetProcAddress(const char *name) {
    Dl_info here;
    return dladdr(&configs, &here) != 0 ? dlsym(dlopen(here.dli_fname, RTLD_NOW), name) : NULL;
}
