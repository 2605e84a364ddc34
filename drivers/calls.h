// The calls that a trace and a log may have: their C types, and the forms of their arguments.
#ifndef CALLS_H
#define CALLS_H

#include <stdint.h>

// A letter an argument, in the order of the words of a line:
// e an enumerant, n a signed number, u an object's name (a variable may stand there), v a handle (likewise), c a config, w a window,
// d a native display, m the mask of glClear, f flags, t a timeout, p the number of a post, a attributes, i numbers, l names, b bytes.
// clang-format off
#define CALLS(CALL) \
    CALL(void *, eglGetDisplay, (void *), "d") \
    CALL(unsigned, eglInitialize, (void *, int *, int *), "v") \
    CALL(unsigned, eglTerminate, (void *), "v") \
    CALL(int, eglGetError, (void), "") \
    CALL(unsigned, eglGetConfigs, (void *, void **, int, int *), "v") \
    CALL(unsigned, eglChooseConfig, (void *, const int *, void **, int, int *), "va") \
    CALL(unsigned, eglGetConfigAttrib, (void *, void *, int, int *), "vce") \
    CALL(void *, eglCreateWindowSurface, (void *, void *, void *, const int *), "vcwa") \
    CALL(void *, eglCreatePbufferSurface, (void *, void *, const int *), "vca") \
    CALL(unsigned, eglDestroySurface, (void *, void *), "vv") \
    CALL(unsigned, eglQuerySurface, (void *, void *, int, int *), "vve") \
    CALL(unsigned, eglSurfaceAttrib, (void *, void *, int, int), "vvee") \
    CALL(unsigned, eglBindAPI, (unsigned), "e") \
    CALL(unsigned, eglQueryAPI, (void), "") \
    CALL(void *, eglCreateContext, (void *, void *, void *, const int *), "vcva") \
    CALL(unsigned, eglDestroyContext, (void *, void *), "vv") \
    CALL(unsigned, eglMakeCurrent, (void *, void *, void *, void *), "vvvv") \
    CALL(void *, eglGetCurrentContext, (void), "") \
    CALL(void *, eglGetCurrentSurface, (int), "e") \
    CALL(void *, eglGetCurrentDisplay, (void), "") \
    CALL(unsigned, eglQueryContext, (void *, void *, int, int *), "vve") \
    CALL(unsigned, eglSwapBuffers, (void *, void *), "vv") \
    CALL(unsigned, eglWaitClient, (void), "") \
    CALL(unsigned, eglReleaseThread, (void), "") \
    CALL(void *, eglCreateSync, (void *, unsigned, const intptr_t *), "vea") \
    CALL(unsigned, eglDestroySync, (void *, void *), "vv") \
    CALL(int, eglClientWaitSync, (void *, void *, int, uint64_t), "vvft") \
    CALL(unsigned, eglWaitSync, (void *, void *, int), "vvf") \
    CALL(unsigned, eglGetSyncAttrib, (void *, void *, int, intptr_t *), "vve") \
    CALL(void *, eglCreateImage, (void *, void *, unsigned, void *, const intptr_t *), "vveua") \
    CALL(unsigned, eglDestroyImage, (void *, void *), "vv") \
    CALL(unsigned, glGetError, (void), "") \
    CALL(void, glFlush, (void), "") \
    CALL(void, glFinish, (void), "") \
    CALL(void, glEnable, (unsigned), "e") \
    CALL(void, glDisable, (unsigned), "e") \
    CALL(void, glScissor, (int, int, int, int), "nnnn") \
    CALL(void, glViewport, (int, int, int, int), "nnnn") \
    CALL(void, glClearColorx, (int, int, int, int), "nnnn") \
    CALL(void, glColor4x, (int, int, int, int), "nnnn") \
    CALL(void, glClearDepthx, (int), "n") \
    CALL(void, glClearStencil, (int), "n") \
    CALL(void, glColorMask, (unsigned char, unsigned char, unsigned char, unsigned char), "nnnn") \
    CALL(void, glTexEnvx, (unsigned, unsigned, int), "eee") \
    CALL(void, glPixelStorei, (unsigned, int), "en") \
    CALL(void, glGetIntegerv, (unsigned, int *), "en") \
    CALL(void, glClear, (unsigned), "m") \
    CALL(void, glReadPixels, (int, int, int, int, unsigned, unsigned, void *), "nnnnee") \
    CALL(void, glDrawTexiOES, (int, int, int, int, int), "nnnnn") \
    CALL(void, glDrawTexxOES, (int, int, int, int, int), "nnnnn") \
    CALL(void, glGenTextures, (int, unsigned *), "n") \
    CALL(void, glGenBuffers, (int, unsigned *), "n") \
    CALL(void, glGenRenderbuffersOES, (int, unsigned *), "n") \
    CALL(void, glGenFramebuffersOES, (int, unsigned *), "n") \
    CALL(void, glDeleteTextures, (int, const unsigned *), "l") \
    CALL(void, glDeleteBuffers, (int, const unsigned *), "l") \
    CALL(void, glDeleteRenderbuffersOES, (int, const unsigned *), "l") \
    CALL(void, glDeleteFramebuffersOES, (int, const unsigned *), "l") \
    CALL(unsigned char, glIsTexture, (unsigned), "u") \
    CALL(unsigned char, glIsBuffer, (unsigned), "u") \
    CALL(unsigned char, glIsRenderbufferOES, (unsigned), "u") \
    CALL(unsigned char, glIsFramebufferOES, (unsigned), "u") \
    CALL(void, glBindTexture, (unsigned, unsigned), "eu") \
    CALL(void, glBindBuffer, (unsigned, unsigned), "eu") \
    CALL(void, glBindRenderbufferOES, (unsigned, unsigned), "eu") \
    CALL(void, glBindFramebufferOES, (unsigned, unsigned), "eu") \
    CALL(void, glTexParameterx, (unsigned, unsigned, int), "eee") \
    CALL(void, glTexParameteriv, (unsigned, unsigned, const int *), "eei") \
    CALL(void, glTexImage2D, (unsigned, int, int, int, int, int, unsigned, unsigned, const void *), "enennneeb") \
    CALL(void, glTexSubImage2D, (unsigned, int, int, int, int, int, unsigned, unsigned, const void *), "ennnnneeb") \
    CALL(void, glCopyTexImage2D, (unsigned, int, unsigned, int, int, int, int, int), "enennnnn") \
    CALL(void, glCopyTexSubImage2D, (unsigned, int, int, int, int, int, int, int), "ennnnnnn") \
    CALL(void, glBufferData, (unsigned, intptr_t, const void *, unsigned), "eneb") \
    CALL(void, glBufferSubData, (unsigned, intptr_t, intptr_t, const void *), "ennb") \
    CALL(void, glGetBufferParameteriv, (unsigned, unsigned, int *), "ee") \
    CALL(void, glRenderbufferStorageOES, (unsigned, unsigned, int, int), "eenn") \
    CALL(void, glGetRenderbufferParameterivOES, (unsigned, unsigned, int *), "ee") \
    CALL(void, glFramebufferTexture2DOES, (unsigned, unsigned, unsigned, unsigned, int), "eeeun") \
    CALL(void, glFramebufferRenderbufferOES, (unsigned, unsigned, unsigned, unsigned), "eeeu") \
    CALL(unsigned, glCheckFramebufferStatusOES, (unsigned), "e") \
    CALL(void, glGetFramebufferAttachmentParameterivOES, (unsigned, unsigned, unsigned, int *), "eee") \
    CALL(void, glEGLImageTargetTexture2DOES, (unsigned, void *), "ev") \
    CALL(void, glEGLImageTargetRenderbufferStorageOES, (unsigned, void *), "ev")

// Calls of traces alone.
#define OWN_CALLS(CALL) \
    CALL(post, "p") \
    CALL(await, "p") \
    CALL(census, "") \
    CALL(readFront, "w") \
    CALL(readBuffer, "enn")

// clang-format on

#define KIND(returns, name, types, forms) CALL_##name,
#define OWN_KIND(name, forms) CALL_##name,
enum call { CALLS(KIND) DRIVER_CALLS, BEFORE_OWN = DRIVER_CALLS - 1, OWN_CALLS(OWN_KIND) CALL_COUNT };
#undef KIND
#undef OWN_KIND

// The calls of EGL stand in front of those of OpenGL ES.
#define FIRST_GL_CALL CALL_glGetError

// Pointers to the calls of a driver.
#define POINTER(returns, name, types, forms) returns(*name) types;
struct calls {
    CALLS(POINTER)
};
#undef POINTER

#endif
