// A program that is recorded: each call, by each of its names, from two threads.
#define _GNU_SOURCE
#include <pthread.h>
#include <signal.h>
#include <stdio.h>
#include <stdlib.h>
#include <string.h>
#include <unistd.h>

#include "../egl_words.h"
#include "../outside.h"
#include "../record.h"

#define DECLARE(returns, name, types, forms) returns name types;
CALLS(DECLARE)

#define NONE \
    (int[]) { EGL_NONE }
#define WIDE \
    (intptr_t[]) { EGL_NONE }
void *eglGetProcAddress(const char *);
void glClearColor(float, float, float, float);
void glEnableClientState(unsigned);
const unsigned char *glGetString(unsigned);
unsigned eglSwapInterval(void *, int);

// A call that is found by its name.
#define BY_NAME(returns, name, types) \
    returns(*name) types; \
    memcpy(&name, &(void *){eglGetProcAddress(#name)}, sizeof(void *))

static void *display, *surface, *context, *config, *fence;
static pthread_barrier_t turn;
static pthread_t thread;
// The calls of extensions, which libraries needn't export.
static struct calls by;

static void expect(int holds, const char *what) {
    if (!holds) printf("wrong: %s\n", what);
}

static void begin_all(void) {
    int count, value;
    void *configs[8];
#define FIND(returns, name, types, forms) memcpy(&by.name, &(void *){eglGetProcAddress(#name)}, sizeof(void *));
    CALLS(FIND)
    display = eglGetDisplay(NULL);
    eglInitialize(display, NULL, NULL);
    eglChooseConfig(display, (int[]){EGL_DEPTH_SIZE, 1, EGL_SURFACE_TYPE, EGL_PBUFFER_BIT | EGL_SWAP_BEHAVIOR_PRESERVED_BIT, EGL_NONE},
        NULL, 0, &count);
    eglChooseConfig(display, NULL, configs, 1, &count);
    eglGetConfigs(display, configs, 8, &count);
    config = configs[count > 2 ? 2 : 0];
    expect(eglGetConfigAttrib(display, config, EGL_RED_SIZE, &value) && value > 0, "EGL_RED_SIZE");
    eglGetConfigAttrib(display, config, EGL_CONFIG_CAVEAT, &value);
    eglGetConfigAttrib(display, config, EGL_SURFACE_TYPE, &value);
    eglGetConfigAttrib(display, config, EGL_MIN_SWAP_INTERVAL, &value);
    expect(!eglGetConfigAttrib(display, config, 77, &value) && eglGetError() == EGL_BAD_ATTRIBUTE && eglGetError() == EGL_SUCCESS,
        "an error of EGL");
    eglBindAPI(EGL_OPENGL_ES_API);
    eglQueryAPI();
    surface = eglCreatePbufferSurface(display, config, (int[]){EGL_WIDTH, 3, EGL_HEIGHT, 2, EGL_NONE});
    context = eglCreateContext(display, config, NULL, (int[]){EGL_CONTEXT_CLIENT_VERSION, 1, EGL_NONE});
    eglMakeCurrent(display, surface, surface, context);
}

static void objects(void) {
    int value;
    intptr_t wide;
    unsigned char windows[2];
    BY_NAME(void *, eglCreatePlatformWindowSurface, (void *, void *, void *, const intptr_t *));
    void *window = eglCreateWindowSurface(display, config, &windows[0], (int[]){EGL_RENDER_BUFFER, EGL_SINGLE_BUFFER, EGL_NONE});
    void *other = eglCreatePlatformWindowSurface(display, config, &windows[1], WIDE);
    eglCreateWindowSurface(display, config, NULL, NULL);
    eglQuerySurface(display, window, EGL_WIDTH, &value);
    eglQuerySurface(display, window, EGL_RENDER_BUFFER, &value);
    eglSurfaceAttrib(display, window, EGL_SWAP_BEHAVIOR, EGL_BUFFER_PRESERVED);
    eglDestroySurface(display, other);
    eglDestroySurface(display, other);
    eglGetCurrentContext(), eglGetCurrentDisplay(), eglGetCurrentSurface(EGL_READ);
    eglQueryContext(display, context, EGL_CONTEXT_CLIENT_TYPE, &value);
    eglSwapBuffers(display, surface);
    eglWaitClient();
    eglSwapInterval(display, 0);
    fence = eglCreateSync(display, EGL_SYNC_FENCE, NULL);
    eglGetSyncAttrib(display, fence, EGL_SYNC_STATUS, &wide);
    eglClientWaitSync(display, fence, 0, 0);
    eglWaitSync(display, fence, 0);
    eglDestroySync(display, fence);
    BY_NAME(void *, eglCreateSyncKHR, (void *, unsigned, const int *));
    fence = eglCreateSyncKHR(display, EGL_SYNC_FENCE, NONE);
    eglDestroyContext(display, (void *)0x7f0000000000);
    eglMakeCurrent((void *)5, NULL, NULL, NULL);
}

static void names(void) {
    unsigned made[3], more;
    int value[4];
    glGenTextures(2, made);
    glBindTexture(GL_TEXTURE_2D, made[1]);
    glIsTexture(made[0]);
    glTexParameterx(GL_TEXTURE_2D, GL_TEXTURE_MIN_FILTER, GL_NEAREST);
    glTexParameteriv(GL_TEXTURE_2D, GL_TEXTURE_CROP_RECT_OES, (int[]){2, 0, -2, 2});
    glTexImage2D(GL_TEXTURE_2D, 0, GL_RGB, 3, 2, 0, GL_RGB, GL_UNSIGNED_BYTE, "0123456789ab0123456789a");
    glTexImage2D(GL_TEXTURE_2D, 0, GL_RGBA, 2, 2, 0, GL_RGBA, GL_UNSIGNED_BYTE, "abcdabcdabcdabcd");
    glTexSubImage2D(GL_TEXTURE_2D, 0, 1, 1, 1, 1, GL_RGBA, GL_UNSIGNED_SHORT_4_4_4_4, "xy");
    glTexImage2D(GL_TEXTURE_2D, 1, GL_RGBA, 1, 1, 0, GL_RGBA, GL_UNSIGNED_BYTE, NULL);
    glCopyTexImage2D(GL_TEXTURE_2D, 0, GL_RGBA, 0, 1, 2, 2, 0);
    glCopyTexSubImage2D(GL_TEXTURE_2D, 0, 0, 1, 0, 1, 1, 1);
    void *image =
        eglCreateImage(display, context, EGL_GL_TEXTURE_2D, (void *)(intptr_t)made[1], (intptr_t[]){EGL_IMAGE_PRESERVED, 1, EGL_NONE});
    by.glEGLImageTargetTexture2DOES(GL_TEXTURE_2D, image);
    glGenBuffers(1, &more);
    glBindBuffer(GL_ARRAY_BUFFER, more);
    glBufferData(GL_ARRAY_BUFFER, 4, "\1\2\3\4", GL_STATIC_DRAW);
    glBufferSubData(GL_ARRAY_BUFFER, 1, 2, "\5\6");
    glGetBufferParameteriv(GL_ARRAY_BUFFER, GL_BUFFER_USAGE, value);
    glIsBuffer(more), glDeleteBuffers(1, &more);
    by.glGenRenderbuffersOES(1, &more);
    by.glBindRenderbufferOES(GL_RENDERBUFFER_OES, more);
    by.glRenderbufferStorageOES(GL_RENDERBUFFER_OES, GL_RGB565_OES, 2, 2);
    by.glEGLImageTargetRenderbufferStorageOES(GL_RENDERBUFFER_OES, image);
    by.glGetRenderbufferParameterivOES(GL_RENDERBUFFER_OES, GL_RENDERBUFFER_HEIGHT_OES, value);
    by.glGenFramebuffersOES(1, made);
    by.glBindFramebufferOES(GL_FRAMEBUFFER_OES, made[0]);
    by.glFramebufferRenderbufferOES(GL_FRAMEBUFFER_OES, GL_COLOR_ATTACHMENT0_OES, GL_RENDERBUFFER_OES, more);
    by.glFramebufferTexture2DOES(GL_FRAMEBUFFER_OES, GL_COLOR_ATTACHMENT0_OES, GL_TEXTURE_2D, made[1], 0);
    by.glCheckFramebufferStatusOES(GL_FRAMEBUFFER_OES);
    by.glGetFramebufferAttachmentParameterivOES(
        GL_FRAMEBUFFER_OES, GL_COLOR_ATTACHMENT0_OES, GL_FRAMEBUFFER_ATTACHMENT_OBJECT_TYPE_OES, value);
    by.glIsRenderbufferOES(more), by.glIsFramebufferOES(made[0]);
    by.glBindFramebufferOES(GL_FRAMEBUFFER_OES, 0);
    by.glDeleteFramebuffersOES(1, made), by.glDeleteRenderbuffersOES(1, &more);
    glDeleteTextures(2, (unsigned[]){made[1], 9});
    eglDestroyImage(display, image);
}

static void drawing(void) {
    int value[4];
    unsigned char pixels[64];
    glEnable(GL_SCISSOR_TEST), glDisable(GL_FOG), glEnable(0xB0B);
    expect(glGetError() == GL_INVALID_ENUM && glGetError() == 0, "an error of OpenGL ES");
    glScissor(0, 0, 2, 1), glViewport(0, 0, 3, -2);
    glClearColorx(65536, 0, 32768, 65536), glColor4x(1, 2, 3, 4), glClearDepthx(5), glClearStencil(6);
    glColorMask(1, 2, 0, 255);
    glTexEnvx(GL_TEXTURE_ENV, GL_TEXTURE_ENV_MODE, GL_REPLACE);
    glPixelStorei(GL_PACK_ALIGNMENT, 8);
    glGetIntegerv(GL_PACK_ALIGNMENT, value), glGetIntegerv(GL_SCISSOR_BOX, value), glGetIntegerv(0x84E2, value);
    glClear(GL_COLOR_BUFFER_BIT | GL_STENCIL_BUFFER_BIT);
    glReadPixels(0, 0, 3, 2, GL_RGBA, GL_UNSIGNED_BYTE, pixels);
    expect(pixels[0] == 255 && pixels[2] == 128 && pixels[8] == 0, "pixels");
    glReadPixels(0, 0, 1, 1, GL_ALPHA, 0x1406, pixels);
    by.glDrawTexiOES(1, 2, 3, 4, 5), by.glDrawTexxOES(1, 2, 3, 4, 5);
    // The other thread waits for this, and all its lines stand behind it.
    glFlush();
    pthread_join(thread, NULL);
    glFinish();
    glClearColor(0.5f, 0.1f, 1, 0);
    glEnableClientState(0x8074);
    glGetString(0x1F02);
    BY_NAME(void, glDrawTexfOES, (float, float, float, float, float));
    BY_NAME(void, glTexParameterf, (unsigned, unsigned, float));
    glDrawTexfOES(0.25f, 1, 0, 1.5f, 100000);
    glTexParameterf(GL_TEXTURE_2D, GL_TEXTURE_MAG_FILTER, GL_LINEAR);
    eglGetProcAddress("glFogxvOES");
}

// Waits for a fence that the other thread's flush signals.
static void *waiter(void *argument) {
    (void)argument;
    pthread_barrier_wait(&turn);
    eglClientWaitSync(display, fence, 0, UINT64_MAX);
    expect(eglGetError() == EGL_SUCCESS, "an error after a wait");
    glClear(0);
    void *shared = eglCreateContext(display, config, context, NULL);
    eglMakeCurrent(display, NULL, NULL, shared);
    eglReleaseThread();
    return NULL;
}

int main(int argc, char **argv) {
    const char *what = argc > 1 ? argv[1] : "all";
    int many = argc > 2 ? atoi(argv[2]) : 0;
    begin_all();
    if (strcmp(what, "clears") == 0) {
        for (int k = 0; k < many; k++) {
            if (k % 2 == 0)
                glClearColorx(k, 2 * k, 3 * k, 65536);
            else
                glClear(GL_COLOR_BUFFER_BIT);
        }
        eglTerminate(display);
        return 0;
    }
    if (strcmp(what, "killed") == 0) raise(SIGTERM);
    if (strcmp(what, "unflushed") == 0) _exit(3);
    pthread_barrier_init(&turn, NULL, 2);
    pthread_create(&thread, NULL, waiter, NULL);
    objects();
    names();
    eglBindAPI(7);
    pthread_barrier_wait(&turn);
    usleep(100000);
    drawing();
    eglMakeCurrent(display, NULL, NULL, NULL);
    glGetError();
    eglTerminate(display);
    return 0;
}
