// Mesa 22.3.6 refuses the level -1, which EGL_LEVEL may have.
// cc -o shows shows.c -lEGL -lGLESv1_CM
#include <EGL/egl.h>
#include <EGL/eglext.h>
#define GL_GLEXT_PROTOTYPES
#include <GLES/gl.h>
#include <GLES/glext.h>
#include <stdio.h>
#include <stdlib.h>
#include <string.h>

// Tells the error of a call, if it has one.
static void told(const char *call) {
    EGLint error = eglGetError();
    if (error == EGL_SUCCESS && eglGetCurrentContext() != EGL_NO_CONTEXT) error = (EGLint)glGetError();
    printf(error == EGL_SUCCESS || error == 0 ? "%s\n" : "%s: error 0x%04x\n", call, (unsigned)error);
    fflush(stdout);
}

static EGLDisplay v_d;

int main(void) {
    // 0 $d = eglGetDisplay 0
    v_d = eglGetDisplay(EGL_DEFAULT_DISPLAY);
    told("eglGetDisplay");
    // 0 eglInitialize $d
    eglInitialize(v_d, NULL, NULL);
    told("eglInitialize");
    // 0 eglChooseConfig $d [EGL_LEVEL,-1]
    { EGLConfig all[512]; EGLint count = 0; eglChooseConfig(v_d, (const EGLint[]){EGL_LEVEL, -1, EGL_NONE}, all, 512, &count); printf("%d configs\n", count); }
    told("eglChooseConfig");
    puts("The specification answers to the eglChooseConfig: ok");
    return 0;
}
