// Mesa 22.3.6 answers EGL_BAD_DISPLAY where the display isn't initialised.
// cc -o shows shows.c -lEGL -lGLESv1_CM
#include <EGL/egl.h>
#include <EGL/eglext.h>
#define GL_GLEXT_PROTOTYPES
#include <GLES/gl.h>
#include <GLES/glext.h>
#include <stdio.h>
#include <stdlib.h>
#include <string.h>

// Tells the error of a call, if it has one.
static void told(const char *call) {
    EGLint error = eglGetError();
    if (error == EGL_SUCCESS && eglGetCurrentContext() != EGL_NO_CONTEXT) error = (EGLint)glGetError();
    printf(error == EGL_SUCCESS || error == 0 ? "%s\n" : "%s: error 0x%04x\n", call, (unsigned)error);
    fflush(stdout);
}

// The first config with exactly these sizes.
static EGLConfig config(EGLDisplay display, EGLint red, EGLint green, EGLint blue, EGLint alpha, EGLint depth, EGLint stencil) {
    static const EGLint names[] = {EGL_RED_SIZE, EGL_GREEN_SIZE, EGL_BLUE_SIZE, EGL_ALPHA_SIZE, EGL_DEPTH_SIZE, EGL_STENCIL_SIZE};
    const EGLint wanted[] = {red, green, blue, alpha, depth, stencil};
    EGLConfig all[512];
    EGLint count = 0;
    eglGetConfigs(display, all, 512, &count);
    for (int k = 0; k < count; k++) {
        int same = 1;
        for (int n = 0; n < 6; n++) {
            EGLint size = -1;
            eglGetConfigAttrib(display, all[k], names[n], &size);
            same = same && size == wanted[n];
        }
        if (same) return all[k];
    }
    printf("no such config\n");
    exit(2);
}

static EGLDisplay v_d;
static EGLContext v_c;

int main(void) {
    // 0 $d = eglGetDisplay 0
    v_d = eglGetDisplay(EGL_DEFAULT_DISPLAY);
    told("eglGetDisplay");
    // 0 eglInitialize $d
    eglInitialize(v_d, NULL, NULL);
    told("eglInitialize");
    // 0 $c = eglCreateContext $d 21 0 []
    v_c = eglCreateContext(v_d, config(v_d, 8, 8, 8, 8, 0, 0), NULL, (const EGLint[]){EGL_NONE});
    told("eglCreateContext");
    // 0 eglTerminate $d
    eglTerminate(v_d);
    told("eglTerminate");
    // 0 eglMakeCurrent $d 0 0 $c
    eglMakeCurrent(v_d, NULL, NULL, v_c);
    told("eglMakeCurrent");
    puts("The specification answers to the last eglMakeCurrent: EGL_NOT_INITIALIZED (0x3001)");
    return 0;
}
