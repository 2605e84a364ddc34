// The calls of EGL 1.5 and OpenGL ES 1.1 that a log has no lines for.
#ifndef OUTSIDE_H
#define OUTSIDE_H

// clang-format off
#define OUTSIDE_CALLS(CALL) \
    CALL(unsigned, eglCopyBuffers, (void *dpy, void *surface, void *target), (dpy, surface, target)) \
    CALL(void *, eglCreatePixmapSurface, (void *dpy, void *config, void *pixmap, const int *attrib_list), (dpy, config, pixmap, attrib_list)) \
    CALL(const char *, eglQueryString, (void *dpy, int name), (dpy, name)) \
    CALL(unsigned, eglWaitGL, (void), ()) \
    CALL(unsigned, eglWaitNative, (int engine), (engine)) \
    CALL(unsigned, eglBindTexImage, (void *dpy, void *surface, int buffer), (dpy, surface, buffer)) \
    CALL(unsigned, eglReleaseTexImage, (void *dpy, void *surface, int buffer), (dpy, surface, buffer)) \
    CALL(unsigned, eglSwapInterval, (void *dpy, int interval), (dpy, interval)) \
    CALL(void *, eglCreatePbufferFromClientBuffer, (void *dpy, unsigned buftype, void *buffer, void *config, const int *attrib_list), (dpy, buftype, buffer, config, attrib_list)) \
    CALL(void *, eglCreatePlatformPixmapSurface, (void *dpy, void *config, void *native_pixmap, const intptr_t *attrib_list), (dpy, config, native_pixmap, attrib_list)) \
    CALL(void, glAlphaFunc, (unsigned func, float ref), (func, ref)) \
    CALL(void, glClipPlanef, (unsigned p, const float *eqn), (p, eqn)) \
    CALL(void, glDepthRangef, (float n, float f), (n, f)) \
    CALL(void, glFogf, (unsigned pname, float param), (pname, param)) \
    CALL(void, glFogfv, (unsigned pname, const float *params), (pname, params)) \
    CALL(void, glFrustumf, (float l, float r, float b, float t, float n, float f), (l, r, b, t, n, f)) \
    CALL(void, glGetClipPlanef, (unsigned plane, float *equation), (plane, equation)) \
    CALL(void, glGetFloatv, (unsigned pname, float *data), (pname, data)) \
    CALL(void, glGetLightfv, (unsigned light, unsigned pname, float *params), (light, pname, params)) \
    CALL(void, glGetMaterialfv, (unsigned face, unsigned pname, float *params), (face, pname, params)) \
    CALL(void, glGetTexEnvfv, (unsigned target, unsigned pname, float *params), (target, pname, params)) \
    CALL(void, glGetTexParameterfv, (unsigned target, unsigned pname, float *params), (target, pname, params)) \
    CALL(void, glLightModelf, (unsigned pname, float param), (pname, param)) \
    CALL(void, glLightModelfv, (unsigned pname, const float *params), (pname, params)) \
    CALL(void, glLightf, (unsigned light, unsigned pname, float param), (light, pname, param)) \
    CALL(void, glLightfv, (unsigned light, unsigned pname, const float *params), (light, pname, params)) \
    CALL(void, glLineWidth, (float width), (width)) \
    CALL(void, glLoadMatrixf, (const float *m), (m)) \
    CALL(void, glMaterialf, (unsigned face, unsigned pname, float param), (face, pname, param)) \
    CALL(void, glMaterialfv, (unsigned face, unsigned pname, const float *params), (face, pname, params)) \
    CALL(void, glMultMatrixf, (const float *m), (m)) \
    CALL(void, glMultiTexCoord4f, (unsigned target, float s, float t, float r, float q), (target, s, t, r, q)) \
    CALL(void, glNormal3f, (float nx, float ny, float nz), (nx, ny, nz)) \
    CALL(void, glOrthof, (float l, float r, float b, float t, float n, float f), (l, r, b, t, n, f)) \
    CALL(void, glPointParameterf, (unsigned pname, float param), (pname, param)) \
    CALL(void, glPointParameterfv, (unsigned pname, const float *params), (pname, params)) \
    CALL(void, glPointSize, (float size), (size)) \
    CALL(void, glPolygonOffset, (float factor, float units), (factor, units)) \
    CALL(void, glRotatef, (float angle, float x, float y, float z), (angle, x, y, z)) \
    CALL(void, glScalef, (float x, float y, float z), (x, y, z)) \
    CALL(void, glTranslatef, (float x, float y, float z), (x, y, z)) \
    CALL(void, glActiveTexture, (unsigned texture), (texture)) \
    CALL(void, glAlphaFuncx, (unsigned func, int ref), (func, ref)) \
    CALL(void, glBlendFunc, (unsigned sfactor, unsigned dfactor), (sfactor, dfactor)) \
    CALL(void, glClientActiveTexture, (unsigned texture), (texture)) \
    CALL(void, glClipPlanex, (unsigned plane, const int *equation), (plane, equation)) \
    CALL(void, glColorPointer, (int size, unsigned type, int stride, const void *pointer), (size, type, stride, pointer)) \
    CALL(void, glCompressedTexImage2D, (unsigned target, int level, unsigned internalformat, int width, int height, int border, int imageSize, const void *data), (target, level, internalformat, width, height, border, imageSize, data)) \
    CALL(void, glCompressedTexSubImage2D, (unsigned target, int level, int xoffset, int yoffset, int width, int height, unsigned format, int imageSize, const void *data), (target, level, xoffset, yoffset, width, height, format, imageSize, data)) \
    CALL(void, glCullFace, (unsigned mode), (mode)) \
    CALL(void, glDepthFunc, (unsigned func), (func)) \
    CALL(void, glDepthMask, (unsigned char flag), (flag)) \
    CALL(void, glDepthRangex, (int n, int f), (n, f)) \
    CALL(void, glDisableClientState, (unsigned array), (array)) \
    CALL(void, glDrawArrays, (unsigned mode, int first, int count), (mode, first, count)) \
    CALL(void, glDrawElements, (unsigned mode, int count, unsigned type, const void *indices), (mode, count, type, indices)) \
    CALL(void, glEnableClientState, (unsigned array), (array)) \
    CALL(void, glFogx, (unsigned pname, int param), (pname, param)) \
    CALL(void, glFogxv, (unsigned pname, const int *param), (pname, param)) \
    CALL(void, glFrontFace, (unsigned mode), (mode)) \
    CALL(void, glFrustumx, (int l, int r, int b, int t, int n, int f), (l, r, b, t, n, f)) \
    CALL(void, glGetBooleanv, (unsigned pname, unsigned char *data), (pname, data)) \
    CALL(void, glGetClipPlanex, (unsigned plane, int *equation), (plane, equation)) \
    CALL(void, glGetFixedv, (unsigned pname, int *params), (pname, params)) \
    CALL(void, glGetLightxv, (unsigned light, unsigned pname, int *params), (light, pname, params)) \
    CALL(void, glGetMaterialxv, (unsigned face, unsigned pname, int *params), (face, pname, params)) \
    CALL(void, glGetPointerv, (unsigned pname, void **params), (pname, params)) \
    CALL(const unsigned char *, glGetString, (unsigned name), (name)) \
    CALL(void, glGetTexEnviv, (unsigned target, unsigned pname, int *params), (target, pname, params)) \
    CALL(void, glGetTexEnvxv, (unsigned target, unsigned pname, int *params), (target, pname, params)) \
    CALL(void, glGetTexParameteriv, (unsigned target, unsigned pname, int *params), (target, pname, params)) \
    CALL(void, glGetTexParameterxv, (unsigned target, unsigned pname, int *params), (target, pname, params)) \
    CALL(void, glHint, (unsigned target, unsigned mode), (target, mode)) \
    CALL(unsigned char, glIsEnabled, (unsigned cap), (cap)) \
    CALL(void, glLightModelx, (unsigned pname, int param), (pname, param)) \
    CALL(void, glLightModelxv, (unsigned pname, const int *param), (pname, param)) \
    CALL(void, glLightx, (unsigned light, unsigned pname, int param), (light, pname, param)) \
    CALL(void, glLightxv, (unsigned light, unsigned pname, const int *params), (light, pname, params)) \
    CALL(void, glLineWidthx, (int width), (width)) \
    CALL(void, glLoadIdentity, (void), ()) \
    CALL(void, glLoadMatrixx, (const int *m), (m)) \
    CALL(void, glLogicOp, (unsigned opcode), (opcode)) \
    CALL(void, glMaterialx, (unsigned face, unsigned pname, int param), (face, pname, param)) \
    CALL(void, glMaterialxv, (unsigned face, unsigned pname, const int *param), (face, pname, param)) \
    CALL(void, glMatrixMode, (unsigned mode), (mode)) \
    CALL(void, glMultMatrixx, (const int *m), (m)) \
    CALL(void, glMultiTexCoord4x, (unsigned texture, int s, int t, int r, int q), (texture, s, t, r, q)) \
    CALL(void, glNormal3x, (int nx, int ny, int nz), (nx, ny, nz)) \
    CALL(void, glNormalPointer, (unsigned type, int stride, const void *pointer), (type, stride, pointer)) \
    CALL(void, glOrthox, (int l, int r, int b, int t, int n, int f), (l, r, b, t, n, f)) \
    CALL(void, glPointParameterx, (unsigned pname, int param), (pname, param)) \
    CALL(void, glPointParameterxv, (unsigned pname, const int *params), (pname, params)) \
    CALL(void, glPointSizex, (int size), (size)) \
    CALL(void, glPolygonOffsetx, (int factor, int units), (factor, units)) \
    CALL(void, glPopMatrix, (void), ()) \
    CALL(void, glPushMatrix, (void), ()) \
    CALL(void, glRotatex, (int angle, int x, int y, int z), (angle, x, y, z)) \
    CALL(void, glSampleCoverage, (float value, unsigned char invert), (value, invert)) \
    CALL(void, glSampleCoveragex, (int value, unsigned char invert), (value, invert)) \
    CALL(void, glScalex, (int x, int y, int z), (x, y, z)) \
    CALL(void, glShadeModel, (unsigned mode), (mode)) \
    CALL(void, glStencilFunc, (unsigned func, int ref, unsigned mask), (func, ref, mask)) \
    CALL(void, glStencilMask, (unsigned mask), (mask)) \
    CALL(void, glStencilOp, (unsigned fail, unsigned zfail, unsigned zpass), (fail, zfail, zpass)) \
    CALL(void, glTexCoordPointer, (int size, unsigned type, int stride, const void *pointer), (size, type, stride, pointer)) \
    CALL(void, glTranslatex, (int x, int y, int z), (x, y, z)) \
    CALL(void, glVertexPointer, (int size, unsigned type, int stride, const void *pointer), (size, type, stride, pointer)) \
    CALL(void, glPointSizePointerOES, (unsigned type, int stride, const void *pointer), (type, stride, pointer))
// clang-format on

#endif
