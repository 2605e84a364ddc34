// ANGLE 150 clips glDrawTex by the viewport.
// cc -o shows shows.c -lEGL -lGLESv1_CM
#include <EGL/egl.h>
#include <EGL/eglext.h>
#define GL_GLEXT_PROTOTYPES
#include <GLES/gl.h>
#include <GLES/glext.h>
#include <stdio.h>
#include <stdlib.h>
#include <string.h>

// Tells the error of a call, if it has one.
static void told(const char *call) {
    EGLint error = eglGetError();
    if (error == EGL_SUCCESS && eglGetCurrentContext() != EGL_NO_CONTEXT) error = (EGLint)glGetError();
    printf(error == EGL_SUCCESS || error == 0 ? "%s\n" : "%s: error 0x%04x\n", call, (unsigned)error);
    fflush(stdout);
}

// The first config with exactly these sizes.
static EGLConfig config(EGLDisplay display, EGLint red, EGLint green, EGLint blue, EGLint alpha, EGLint depth, EGLint stencil) {
    static const EGLint names[] = {EGL_RED_SIZE, EGL_GREEN_SIZE, EGL_BLUE_SIZE, EGL_ALPHA_SIZE, EGL_DEPTH_SIZE, EGL_STENCIL_SIZE};
    const EGLint wanted[] = {red, green, blue, alpha, depth, stencil};
    EGLConfig all[512];
    EGLint count = 0;
    eglGetConfigs(display, all, 512, &count);
    for (int k = 0; k < count; k++) {
        int same = 1;
        for (int n = 0; n < 6; n++) {
            EGLint size = -1;
            eglGetConfigAttrib(display, all[k], names[n], &size);
            same = same && size == wanted[n];
        }
        if (same) return all[k];
    }
    printf("no such config\n");
    exit(2);
}

static void told_pixels(const unsigned char *pixels, size_t size) {
    for (size_t k = 0; k < size; k++) printf("%02x", pixels[k]);
    printf("\n");
}

static PFNGLDRAWTEXIOESPROC p_glDrawTexiOES;
#define glDrawTexiOES p_glDrawTexiOES
static EGLDisplay v_d;
static EGLSurface v_s;
static EGLContext v_c;

int main(void) {
    p_glDrawTexiOES = (PFNGLDRAWTEXIOESPROC)eglGetProcAddress("glDrawTexiOES");
    // 0 $d = eglGetDisplay 0
    v_d = eglGetDisplay(EGL_DEFAULT_DISPLAY);
    told("eglGetDisplay");
    // 0 eglInitialize $d
    eglInitialize(v_d, NULL, NULL);
    told("eglInitialize");
    // 0 $s = eglCreatePbufferSurface $d 1 [EGL_WIDTH,2,EGL_HEIGHT,1]
    v_s = eglCreatePbufferSurface(v_d, config(v_d, 8, 8, 8, 8, 0, 0), (const EGLint[]){EGL_WIDTH, 2, EGL_HEIGHT, 1, EGL_NONE});
    told("eglCreatePbufferSurface");
    // 0 $c = eglCreateContext $d 1 0 []
    v_c = eglCreateContext(v_d, config(v_d, 8, 8, 8, 8, 0, 0), NULL, (const EGLint[]){EGL_NONE});
    told("eglCreateContext");
    // 0 eglMakeCurrent $d $s $s $c
    eglMakeCurrent(v_d, v_s, v_s, v_c);
    told("eglMakeCurrent");
    // 0 glViewport 0 0 1 1
    glViewport(0, 0, 1, 1);
    told("glViewport");
    // 0 glDrawTexiOES 0 0 0 2 1
    glDrawTexiOES(0, 0, 0, 2, 1);
    told("glDrawTexiOES");
    // 0 glReadPixels 0 0 2 1 GL_RGBA GL_UNSIGNED_BYTE
    {
        size_t size = (size_t)(2 > 0 ? 2 : 0) * (1 > 0 ? 1 : 0) * 4;
        unsigned char *pixels = calloc(1, size + 65536);
        glReadPixels(0, 0, 2, 1, GL_RGBA, GL_UNSIGNED_BYTE, pixels);
        told("glReadPixels");
        told_pixels(pixels, size);
        free(pixels);
    }
    puts("The specification answers to the glReadPixels: ffffffffffffffff");
    return 0;
}
