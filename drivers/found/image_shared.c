// softpipe of Mesa 22.3.6 draws red: a texture that took the pixels of an image stays as it was first drawn and swapped, behind the glFinish of the context that writes and a new bind.
// cc -o shows shows.c -lEGL -lGLESv1_CM -pthread
#include <EGL/egl.h>
#include <EGL/eglext.h>
#define GL_GLEXT_PROTOTYPES
#include <GLES/gl.h>
#include <GLES/glext.h>
#include <pthread.h>
#include <stdio.h>
#include <stdlib.h>
#include <string.h>

// Tells the error of a call, if it has one.
static void told(const char *call) {
    EGLint error = eglGetError();
    if (error == EGL_SUCCESS && eglGetCurrentContext() != EGL_NO_CONTEXT) error = (EGLint)glGetError();
    printf(error == EGL_SUCCESS || error == 0 ? "%s\n" : "%s: error 0x%04x\n", call, (unsigned)error);
    fflush(stdout);
}

// The first config with exactly these sizes.
static EGLConfig config(EGLDisplay display, EGLint red, EGLint green, EGLint blue, EGLint alpha, EGLint depth, EGLint stencil) {
    static const EGLint names[] = {EGL_RED_SIZE, EGL_GREEN_SIZE, EGL_BLUE_SIZE, EGL_ALPHA_SIZE, EGL_DEPTH_SIZE, EGL_STENCIL_SIZE};
    const EGLint wanted[] = {red, green, blue, alpha, depth, stencil};
    EGLConfig all[512];
    EGLint count = 0;
    eglGetConfigs(display, all, 512, &count);
    for (int k = 0; k < count; k++) {
        int same = 1;
        for (int n = 0; n < 6; n++) {
            EGLint size = -1;
            eglGetConfigAttrib(display, all[k], names[n], &size);
            same = same && size == wanted[n];
        }
        if (same) return all[k];
    }
    printf("no such config\n");
    exit(2);
}

static void told_pixels(const unsigned char *pixels, size_t size) {
    for (size_t k = 0; k < size; k++) printf("%02x", pixels[k]);
    printf("\n");
}

// The threads take turns: each call has a number, and is made when the ones before it are done.
static pthread_mutex_t lock = PTHREAD_MUTEX_INITIALIZER;
static pthread_cond_t passed = PTHREAD_COND_INITIALIZER;
static int now;
static void turn(int number) {
    pthread_mutex_lock(&lock);
    while (now != number) pthread_cond_wait(&passed, &lock);
    pthread_mutex_unlock(&lock);
}
static void next(void) {
    pthread_mutex_lock(&lock);
    now++;
    pthread_cond_broadcast(&passed);
    pthread_mutex_unlock(&lock);
}

static PFNGLBINDFRAMEBUFFEROESPROC p_glBindFramebufferOES;
#define glBindFramebufferOES p_glBindFramebufferOES
static PFNGLDRAWTEXIOESPROC p_glDrawTexiOES;
#define glDrawTexiOES p_glDrawTexiOES
static PFNGLEGLIMAGETARGETTEXTURE2DOESPROC p_glEGLImageTargetTexture2DOES;
#define glEGLImageTargetTexture2DOES p_glEGLImageTargetTexture2DOES
static PFNGLFRAMEBUFFERTEXTURE2DOESPROC p_glFramebufferTexture2DOES;
#define glFramebufferTexture2DOES p_glFramebufferTexture2DOES
static EGLDisplay v_d;
static EGLSurface v_s;
static EGLContext v_c;
static EGLContext v_e;
static EGLImage v_i;

static void *thread_0(void *unused) {
    turn(0);
    // 0 $d = eglGetDisplay 0
    v_d = eglGetDisplay(EGL_DEFAULT_DISPLAY);
    told("eglGetDisplay");
    next();
    turn(1);
    // 0 eglInitialize $d
    eglInitialize(v_d, NULL, NULL);
    told("eglInitialize");
    next();
    turn(2);
    // 0 $s = eglCreatePbufferSurface $d 11 [EGL_WIDTH,2,EGL_HEIGHT,2]
    v_s = eglCreatePbufferSurface(v_d, config(v_d, 8, 8, 8, 8, 0, 0), (const EGLint[]){EGL_WIDTH, 2, EGL_HEIGHT, 2, EGL_NONE});
    told("eglCreatePbufferSurface");
    next();
    turn(3);
    // 0 $c = eglCreateContext $d 11 0 []
    v_c = eglCreateContext(v_d, config(v_d, 8, 8, 8, 8, 0, 0), NULL, (const EGLint[]){EGL_NONE});
    told("eglCreateContext");
    next();
    turn(4);
    // 0 eglMakeCurrent $d $s $s $c
    eglMakeCurrent(v_d, v_s, v_s, v_c);
    told("eglMakeCurrent");
    next();
    turn(5);
    // 0 glEnable GL_TEXTURE_2D
    glEnable(GL_TEXTURE_2D);
    told("glEnable");
    next();
    turn(16);
    // 0 glBindTexture GL_TEXTURE_2D 1
    glBindTexture(GL_TEXTURE_2D, 1);
    told("glBindTexture");
    next();
    turn(17);
    // 0 glEGLImageTargetTexture2DOES GL_TEXTURE_2D $i
    glEGLImageTargetTexture2DOES(GL_TEXTURE_2D, v_i);
    told("glEGLImageTargetTexture2DOES");
    next();
    turn(18);
    // 0 glTexParameterx GL_TEXTURE_2D GL_TEXTURE_MIN_FILTER GL_NEAREST
    glTexParameterx(GL_TEXTURE_2D, GL_TEXTURE_MIN_FILTER, GL_NEAREST);
    told("glTexParameterx");
    next();
    turn(19);
    // 0 glDrawTexiOES 0 0 0 2 2
    glDrawTexiOES(0, 0, 0, 2, 2);
    told("glDrawTexiOES");
    next();
    turn(20);
    // 0 eglSwapBuffers $d $s
    eglSwapBuffers(v_d, v_s);
    told("eglSwapBuffers");
    next();
    turn(24);
    // 0 glBindTexture GL_TEXTURE_2D 1
    glBindTexture(GL_TEXTURE_2D, 1);
    told("glBindTexture");
    next();
    turn(25);
    // 0 glDrawTexiOES 0 0 0 2 2
    glDrawTexiOES(0, 0, 0, 2, 2);
    told("glDrawTexiOES");
    next();
    turn(26);
    // 0 glReadPixels 0 0 1 1 GL_RGBA GL_UNSIGNED_BYTE
    {
        size_t size = (size_t)(1 > 0 ? 1 : 0) * (1 > 0 ? 1 : 0) * 4;
        unsigned char *pixels = calloc(1, size + 65536);
        glReadPixels(0, 0, 1, 1, GL_RGBA, GL_UNSIGNED_BYTE, pixels);
        told("glReadPixels");
        told_pixels(pixels, size);
        free(pixels);
    }
    next();
    return unused;
}

static void *thread_1(void *unused) {
    turn(6);
    // 1 $e = eglCreateContext $d 11 0 []
    v_e = eglCreateContext(v_d, config(v_d, 8, 8, 8, 8, 0, 0), NULL, (const EGLint[]){EGL_NONE});
    told("eglCreateContext");
    next();
    turn(7);
    // 1 eglMakeCurrent $d 0 0 $e
    eglMakeCurrent(v_d, NULL, NULL, v_e);
    told("eglMakeCurrent");
    next();
    turn(8);
    // 1 glBindTexture GL_TEXTURE_2D 1
    glBindTexture(GL_TEXTURE_2D, 1);
    told("glBindTexture");
    next();
    turn(9);
    // 1 glTexImage2D GL_TEXTURE_2D 0 GL_RGBA 2 2 0 GL_RGBA GL_UNSIGNED_BYTE -
    glTexImage2D(GL_TEXTURE_2D, 0, GL_RGBA, 2, 2, 0, GL_RGBA, GL_UNSIGNED_BYTE, NULL);
    told("glTexImage2D");
    next();
    turn(10);
    // 1 glBindFramebufferOES GL_FRAMEBUFFER_OES 1
    glBindFramebufferOES(GL_FRAMEBUFFER_OES, 1);
    told("glBindFramebufferOES");
    next();
    turn(11);
    // 1 glFramebufferTexture2DOES GL_FRAMEBUFFER_OES GL_COLOR_ATTACHMENT0_OES GL_TEXTURE_2D 1 0
    glFramebufferTexture2DOES(GL_FRAMEBUFFER_OES, GL_COLOR_ATTACHMENT0_OES, GL_TEXTURE_2D, 1, 0);
    told("glFramebufferTexture2DOES");
    next();
    turn(12);
    // 1 glClearColorx 65536 0 0 65536
    glClearColorx(65536, 0, 0, 65536);
    told("glClearColorx");
    next();
    turn(13);
    // 1 glClear GL_COLOR_BUFFER_BIT
    glClear(GL_COLOR_BUFFER_BIT);
    told("glClear");
    next();
    turn(14);
    // 1 $i = eglCreateImage $d $e EGL_GL_TEXTURE_2D 1 [EGL_IMAGE_PRESERVED,1]
    v_i = eglCreateImage(v_d, v_e, EGL_GL_TEXTURE_2D, (EGLClientBuffer)(intptr_t)(void *)(intptr_t)1, (const EGLAttrib[]){EGL_IMAGE_PRESERVED, 1, EGL_NONE});
    told("eglCreateImage");
    next();
    turn(15);
    // 1 glFinish
    glFinish();
    told("glFinish");
    next();
    turn(21);
    // 1 glClearColorx 0 65536 0 65536
    glClearColorx(0, 65536, 0, 65536);
    told("glClearColorx");
    next();
    turn(22);
    // 1 glClear GL_COLOR_BUFFER_BIT
    glClear(GL_COLOR_BUFFER_BIT);
    told("glClear");
    next();
    turn(23);
    // 1 glFinish
    glFinish();
    told("glFinish");
    next();
    return unused;
}

int main(void) {
    p_glBindFramebufferOES = (PFNGLBINDFRAMEBUFFEROESPROC)eglGetProcAddress("glBindFramebufferOES");
    p_glDrawTexiOES = (PFNGLDRAWTEXIOESPROC)eglGetProcAddress("glDrawTexiOES");
    p_glEGLImageTargetTexture2DOES = (PFNGLEGLIMAGETARGETTEXTURE2DOESPROC)eglGetProcAddress("glEGLImageTargetTexture2DOES");
    p_glFramebufferTexture2DOES = (PFNGLFRAMEBUFFERTEXTURE2DOESPROC)eglGetProcAddress("glFramebufferTexture2DOES");
    pthread_t threads[2];
    pthread_create(&threads[0], NULL, thread_0, NULL);
    pthread_create(&threads[1], NULL, thread_1, NULL);
    for (int k = 0; k < 2; k++) pthread_join(threads[k], NULL);
    puts("The specification answers to the glReadPixels: 00ff00ff");
    return 0;
}
