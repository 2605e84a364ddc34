// The calls of OpenGL ES that a recording has lines for.
#include <stdlib.h>
#include <string.h>

#include "egl_words.h"
#include "log.h"
#include "record.h"

// Ends a line that answers nothing.
static void nothing(void) {
    if (end_gl()) log_text("0");
    close_line();
    leave();
}

// A call, its numbers by their writers, and nothing that it answers.
#define TAKEN(name, types, names, ...) \
    void name types { \
        if (!enter()) return real.name names; \
        begin(#name), __VA_ARGS__; \
        real.name names; \
        nothing(); \
    }
#define N put_number
#define G put_gl

unsigned glGetError(void) {
    if (!enter()) return real.glGetError();
    unsigned error = real.glGetError();
    int from_outside = 0;
    if (me.context != NULL) {
        if (me.context->error != 0) error = me.context->error, from_outside = me.context->outside;
        me.context->error = 0;
    }
    if (from_outside)
        log_text("# outside glGetError\n");
    else {
        begin("glGetError"), log_text(" => ok ");
        if (me.context == NULL)
            log_unsigned(error);
        else
            log_gl_error(error);
        close_line();
    }
    leave();
    return error;
}

TAKEN(glFlush, (void), (), (void)0)
TAKEN(glFinish, (void), (), (void)0)
TAKEN(glEnable, (unsigned name), (name), G(name))
TAKEN(glDisable, (unsigned name), (name), G(name))
TAKEN(glScissor, (int x, int y, int w, int h), (x, y, w, h), N(x), N(y), N(w), N(h))
TAKEN(glViewport, (int x, int y, int w, int h), (x, y, w, h), N(x), N(y), N(w), N(h))
TAKEN(glClearColorx, (int r, int g, int b, int a), (r, g, b, a), N(r), N(g), N(b), N(a))
TAKEN(glColor4x, (int r, int g, int b, int a), (r, g, b, a), N(r), N(g), N(b), N(a))
TAKEN(glClearDepthx, (int depth), (depth), N(depth))
TAKEN(glClearStencil, (int stencil), (stencil), N(stencil))
TAKEN(glColorMask, (unsigned char r, unsigned char g, unsigned char b, unsigned char a), (r, g, b, a), N(r), N(g), N(b), N(a))
TAKEN(glTexEnvx, (unsigned target, unsigned name, int value), (target, name, value), G(target), G(name), G(value))
TAKEN(glPixelStorei, (unsigned name, int value), (name, value), G(name), N(value))
TAKEN(glDrawTexiOES, (int x, int y, int z, int w, int h), (x, y, z, w, h), N(x), N(y), N(z), N(w), N(h))
TAKEN(glDrawTexxOES, (int x, int y, int z, int w, int h), (x, y, z, w, h), N(x), N(y), N(z), N(w), N(h))
TAKEN(glTexParameterx, (unsigned target, unsigned name, int value), (target, name, value), G(target), G(name), G(value))
TAKEN(glCopyTexImage2D, (unsigned target, int level, unsigned internal, int x, int y, int w, int h, int border),
    (target, level, internal, x, y, w, h, border), G(target), N(level), G(internal), N(x), N(y), N(w), N(h), N(border))
TAKEN(glCopyTexSubImage2D, (unsigned target, int level, int to_x, int to_y, int x, int y, int w, int h),
    (target, level, to_x, to_y, x, y, w, h), G(target), N(level), N(to_x), N(to_y), N(x), N(y), N(w), N(h))
TAKEN(glRenderbufferStorageOES, (unsigned target, unsigned internal, int w, int h), (target, internal, w, h), G(target), G(internal), N(w),
    N(h))
TAKEN(glFramebufferTexture2DOES, (unsigned target, unsigned attachment, unsigned kind, unsigned texture, int level),
    (target, attachment, kind, texture, level), G(target), G(attachment), G(kind), put_name(TEXTURE, texture), N(level))
TAKEN(glFramebufferRenderbufferOES, (unsigned target, unsigned attachment, unsigned kind, unsigned renderbuffer),
    (target, attachment, kind, renderbuffer), G(target), G(attachment), G(kind), put_name(RENDERBUFFER, renderbuffer))
TAKEN(glEGLImageTargetTexture2DOES, (unsigned target, void *image), (target, image), G(target), put_handle(IMAGE, image))
TAKEN(glEGLImageTargetRenderbufferStorageOES, (unsigned target, void *image), (target, image), G(target), put_handle(IMAGE, image))

// ---- forms with floats and with lists

// A value of a parameter: a name, or a number that is written without what stands behind its point.
static long long whole(float value) {
    if ((float)(int)value != value) inexact();
    return (long long)value;
}

static void begin_fixed(const char *name, int count, const float *numbers) {
    int written[5];
    for (int k = 0; k < count; k++) written[k] = fixed(numbers[k]);
    begin(name);
    for (int k = 0; k < count; k++) N(written[k]);
}

static void begin_value(const char *line, unsigned target, unsigned name, float value) {
    long long written = whole(value);
    begin(line), G(target), G(name), G(written);
}

// The colour of an environment has no line; its first number stands there.
static void begin_environment(unsigned target, unsigned name, float value) {
    if (name != GL_TEXTURE_ENV_MODE) inexact();
    begin_value("glTexEnvx", target, name, value);
}

// A call by another name or with other types of its numbers; its line is begun by the last argument.
#define FORM(name, types, names, ...) \
    void name types { \
        if (!enter()) return more.name names; \
        __VA_ARGS__; \
        more.name names; \
        nothing(); \
    }
#define FLOATS(...) \
    (float[]) { __VA_ARGS__ }
FORM(glClearColor, (float r, float g, float b, float a), (r, g, b, a), begin_fixed("glClearColorx", 4, FLOATS(r, g, b, a)))
FORM(glColor4f, (float r, float g, float b, float a), (r, g, b, a), begin_fixed("glColor4x", 4, FLOATS(r, g, b, a)))
FORM(glColor4ub, (unsigned char r, unsigned char g, unsigned char b, unsigned char a), (r, g, b, a),
    begin_fixed("glColor4x", 4, FLOATS(r / 255.0f, g / 255.0f, b / 255.0f, a / 255.0f)))
FORM(glClearDepthf, (float depth), (depth), begin_fixed("glClearDepthx", 1, FLOATS(depth)))
FORM(glDrawTexfOES, (float x, float y, float z, float w, float h), (x, y, z, w, h), begin_fixed("glDrawTexxOES", 5, FLOATS(x, y, z, w, h)))
FORM(glDrawTexfvOES, (const float *list), (list), begin_fixed("glDrawTexxOES", 5, list))
FORM(glDrawTexsOES, (short x, short y, short z, short w, short h), (x, y, z, w, h), begin("glDrawTexiOES"), N(x), N(y), N(z), N(w), N(h))
FORM(glDrawTexsvOES, (const short *n), (n), begin("glDrawTexiOES"), N(n[0]), N(n[1]), N(n[2]), N(n[3]), N(n[4]))
FORM(glDrawTexivOES, (const int *n), (n), begin("glDrawTexiOES"), N(n[0]), N(n[1]), N(n[2]), N(n[3]), N(n[4]))
FORM(glDrawTexxvOES, (const int *n), (n), begin("glDrawTexxOES"), N(n[0]), N(n[1]), N(n[2]), N(n[3]), N(n[4]))
FORM(glTexParameterf, (unsigned target, unsigned name, float value), (target, name, value),
    begin_value("glTexParameterx", target, name, value))
FORM(glTexParameteri, (unsigned target, unsigned name, int value), (target, name, value), begin("glTexParameterx"), G(target), G(name),
    G(value))
FORM(glTexEnvf, (unsigned target, unsigned name, float value), (target, name, value), begin_value("glTexEnvx", target, name, value))
FORM(glTexEnvi, (unsigned target, unsigned name, int value), (target, name, value), begin("glTexEnvx"), G(target), G(name), G(value))
FORM(glTexEnvfv, (unsigned target, unsigned name, const float *value), (target, name, value), begin_environment(target, name, *value))
FORM(glTexEnviv, (unsigned target, unsigned name, const int *value), (target, name, value), begin_environment(target, name, (float)*value))
FORM(glTexEnvxv, (unsigned target, unsigned name, const int *value), (target, name, value), begin_environment(target, name, (float)*value))

// A list of parameters: the four of a crop rectangle, or one, which is the other call's.
static void begin_parameters(unsigned target, unsigned name, const int *list) {
    int crop = name == GL_TEXTURE_CROP_RECT_OES;
    begin(crop ? "glTexParameteriv" : "glTexParameterx"), G(target), G(name);
    if (!crop) {
        G(list[0]);
        return;
    }
    for (int k = 0; k < 4; k++) log_text(k == 0 ? " [" : ","), log_number(list[k]);
    log_text("]");
}

void glTexParameteriv(unsigned target, unsigned name, const int *list) {
    if (!enter()) return real.glTexParameteriv(target, name, list);
    begin_parameters(target, name, list);
    real.glTexParameteriv(target, name, list);
    nothing();
}

void glTexParameterxv(unsigned target, unsigned name, const int *list) {
    if (!enter()) return more.glTexParameterxv(target, name, list);
    int numbers[4] = {list[0]};
    for (int k = 0; k < 4 && name == GL_TEXTURE_CROP_RECT_OES; k++) numbers[k] = (int)whole((float)list[k] / 65536);
    begin_parameters(target, name, numbers);
    more.glTexParameterxv(target, name, list);
    nothing();
}

void glTexParameterfv(unsigned target, unsigned name, const float *list) {
    if (!enter()) return more.glTexParameterfv(target, name, list);
    int numbers[4] = {(int)whole(list[0])};
    for (int k = 0; k < 4 && name == GL_TEXTURE_CROP_RECT_OES; k++) numbers[k] = (int)whole(list[k]);
    begin_parameters(target, name, numbers);
    more.glTexParameterfv(target, name, list);
    nothing();
}

// The bits of a mask are this project's own; what is none of them is another one.
void glClear(unsigned mask) {
    static const struct {
        unsigned bit;
        const char *name;
    } bits[] = {{GL_COLOR_BUFFER_BIT, "GL_COLOR_BUFFER_BIT"}, {GL_DEPTH_BUFFER_BIT, "GL_DEPTH_BUFFER_BIT"},
        {GL_STENCIL_BUFFER_BIT, "GL_STENCIL_BUFFER_BIT"}};
    const char *between = " ";
    if (!enter()) return real.glClear(mask);
    begin("glClear");
    if ((mask & ~(unsigned)(GL_COLOR_BUFFER_BIT | GL_DEPTH_BUFFER_BIT | GL_STENCIL_BUFFER_BIT)) != 0)
        log_text(" 8");
    else if (mask == 0)
        log_text(" 0");
    else
        for (int k = 0; k < 3; k++)
            if (mask & bits[k].bit) log_text(between), log_text(bits[k].name), between = "|";
    real.glClear(mask);
    nothing();
}

// ---- names

#define NAMES(letter, space, generates, deletes, asks, binds) \
    void generates(int count, unsigned *names) { \
        if (!enter()) return real.generates(count, names); \
        begin_making(#generates, letter), N(count); \
        real.generates(count, names); \
        made_names(space, count, names); \
    } \
    void deletes(int count, const unsigned *names) { \
        if (!enter()) return real.deletes(count, names); \
        begin(#deletes), put_names(space, count, names); \
        real.deletes(count, names); \
        nothing(); \
    } \
    unsigned char asks(unsigned name) { \
        if (!enter()) return real.asks(name); \
        begin(#asks), put_name(space, name); \
        unsigned char is = real.asks(name); \
        if (end_gl()) log_unsigned(is); \
        close_line(); \
        leave(); \
        return is; \
    } \
    TAKEN(binds, (unsigned target, unsigned name), (target, name), G(target), put_name(space, name))

static void made_names(enum space space, int count, const unsigned *names) {
    if (end_gl()) {
        log_text("0");
        for (int k = 0; k < count && me.context != NULL; k++) log_text(k == 0 ? " [" : ","), log_unsigned(names[k]);
        if (count > 0 && me.context != NULL) log_text("]"), know_names(space, count, names);
    }
    close_line();
    leave();
}

NAMES('t', TEXTURE, glGenTextures, glDeleteTextures, glIsTexture, glBindTexture)
NAMES('b', BUFFER, glGenBuffers, glDeleteBuffers, glIsBuffer, glBindBuffer)
NAMES('r', RENDERBUFFER, glGenRenderbuffersOES, glDeleteRenderbuffersOES, glIsRenderbufferOES, glBindRenderbufferOES)
NAMES('f', FRAMEBUFFER, glGenFramebuffersOES, glDeleteFramebuffersOES, glIsFramebufferOES, glBindFramebufferOES)

// ---- what is asked for

static void asked(long long value, int named) {
    if (end_gl()) {
        if (named)
            log_gl_name(value);
        else
            log_number(value);
    }
    close_line();
}

void glGetIntegerv(unsigned name, int *values) {
    static const unsigned known[] = {GL_UNPACK_ALIGNMENT, GL_PACK_ALIGNMENT, GL_TEXTURE_BINDING_2D, GL_ARRAY_BUFFER_BINDING,
        GL_ELEMENT_ARRAY_BUFFER_BINDING, GL_FRAMEBUFFER_BINDING_OES, GL_RENDERBUFFER_BINDING_OES, GL_VIEWPORT, GL_SCISSOR_BOX,
        GL_MAX_TEXTURE_SIZE};
    size_t place = 0, count = sizeof known / sizeof *known;
    if (!enter()) return real.glGetIntegerv(name, values);
    while (place < count && known[place] != name) place++;
    if (place == count) {
        real.glGetIntegerv(name, values);
        outside("glGetIntegerv");
        leave();
        return;
    }
    int numbers = name == GL_VIEWPORT || name == GL_SCISSOR_BOX ? 4 : 1;
    for (int k = 0; k < numbers; k++) {
        begin("glGetIntegerv"), G(name), N(k);
        if (k == 0) real.glGetIntegerv(name, values);
        asked(me.context == NULL ? 0 : values[k], 0);
    }
    leave();
}

#define ASKED(name, types, names, named, ...) \
    void name types { \
        if (!enter()) return real.name names; \
        begin(#name), __VA_ARGS__; \
        real.name names; \
        asked(me.context == NULL ? 0 : *value, named); \
        leave(); \
    }
ASKED(glGetBufferParameteriv, (unsigned target, unsigned name, int *value), (target, name, value),
    name == GL_BUFFER_USAGE && me.context != NULL, G(target), G(name))
ASKED(glGetRenderbufferParameterivOES, (unsigned target, unsigned name, int *value), (target, name, value), 0, G(target), G(name))
ASKED(glGetFramebufferAttachmentParameterivOES, (unsigned target, unsigned attachment, unsigned name, int *value),
    (target, attachment, name, value), name == GL_FRAMEBUFFER_ATTACHMENT_OBJECT_TYPE_OES && me.context != NULL, G(target), G(attachment),
    G(name))

unsigned glCheckFramebufferStatusOES(unsigned target) {
    if (!enter()) return real.glCheckFramebufferStatusOES(target);
    begin("glCheckFramebufferStatusOES"), G(target);
    unsigned status = real.glCheckFramebufferStatusOES(target);
    asked(status, status != 0);
    leave();
    return status;
}

// ---- pixels and buffers

#define MOST_BYTES 8388608

// The bytes of a pixel, 0 where a log doesn't say how it is laid out.
static size_t pixel_size(unsigned format, unsigned type) {
    if (type == GL_UNSIGNED_SHORT_5_6_5) return format == GL_RGB ? 2 : 0;
    if (type == GL_UNSIGNED_SHORT_4_4_4_4 || type == GL_UNSIGNED_SHORT_5_5_5_1) return format == GL_RGBA ? 2 : 0;
    if (type != GL_UNSIGNED_BYTE) return 0;
    return format == GL_RGBA                              ? 4
           : format == GL_RGB                             ? 3
           : format == GL_LUMINANCE_ALPHA                 ? 2
           : format == GL_ALPHA || format == GL_LUMINANCE ? 1
                                                          : 0;
}

static size_t row_size(int width, size_t pixel, unsigned alignment_name) {
    int alignment = 4;
    if (me.context != NULL) real.glGetIntegerv(alignment_name, &alignment);
    return ((size_t)width * pixel + (size_t)alignment - 1) / (size_t)alignment * (size_t)alignment;
}

// How many bytes an image has: the last row isn't filled up. What can't be written whole isn't written.
static size_t image_size(int w, int h, unsigned format, unsigned type, const void *bytes) {
    size_t pixel = pixel_size(format, type);
    if (bytes == NULL || w <= 0 || h <= 0) return 0;
    size_t size = pixel == 0 ? MOST_BYTES + 1 : row_size(w, pixel, GL_UNPACK_ALIGNMENT) * (size_t)(h - 1) + (size_t)w * pixel;
    if (size <= MOST_BYTES) return size;
    inexact();
    return 0;
}

void glTexImage2D(unsigned target, int level, int internal, int w, int h, int border, unsigned format, unsigned type, const void *bytes) {
    if (!enter()) return real.glTexImage2D(target, level, internal, w, h, border, format, type, bytes);
    size_t size = image_size(w, h, format, type, bytes);
    begin("glTexImage2D"), G(target), N(level), G(internal), N(w), N(h), N(border), G(format), G(type), put_bytes(bytes, size);
    real.glTexImage2D(target, level, internal, w, h, border, format, type, bytes);
    nothing();
}

void glTexSubImage2D(unsigned target, int level, int x, int y, int w, int h, unsigned format, unsigned type, const void *bytes) {
    if (!enter()) return real.glTexSubImage2D(target, level, x, y, w, h, format, type, bytes);
    size_t size = image_size(w, h, format, type, bytes);
    begin("glTexSubImage2D"), G(target), N(level), N(x), N(y), N(w), N(h), G(format), G(type), put_bytes(bytes, size);
    real.glTexSubImage2D(target, level, x, y, w, h, format, type, bytes);
    nothing();
}

static size_t buffer_size(intptr_t size, const void *bytes) {
    if (bytes == NULL || size <= 0) return 0;
    if (size <= MOST_BYTES) return (size_t)size;
    inexact();
    return 0;
}

void glBufferData(unsigned target, intptr_t size, const void *bytes, unsigned usage) {
    if (!enter()) return real.glBufferData(target, size, bytes, usage);
    size_t written = buffer_size(size, bytes);
    begin("glBufferData"), G(target), N(size), G(usage), put_bytes(bytes, written);
    real.glBufferData(target, size, bytes, usage);
    nothing();
}

void glBufferSubData(unsigned target, intptr_t offset, intptr_t size, const void *bytes) {
    if (!enter()) return real.glBufferSubData(target, offset, size, bytes);
    size_t written = buffer_size(size, bytes);
    begin("glBufferSubData"), G(target), N(offset), N(size), put_bytes(bytes, written);
    real.glBufferSubData(target, offset, size, bytes);
    nothing();
}

// Rows are filled up by zeros in a log; what the program has there stays.
static void put_pixels(int w, int h, size_t pixel, const unsigned char *from) {
    static const unsigned char zeros[8];
    size_t row = row_size(w, pixel, GL_PACK_ALIGNMENT), used = (size_t)w * pixel;
    log_text(" [] ");
    for (int k = 0; k < h; k++) {
        log_digits(from + (size_t)k * row, used);
        if (row > used) log_digits(zeros, row - used);
    }
}

void glReadPixels(int x, int y, int w, int h, unsigned format, unsigned type, void *bytes) {
    if (!enter()) return real.glReadPixels(x, y, w, h, format, type, bytes);
    size_t pixel = pixel_size(format, type);
    if (pixel == 0) inexact();
    begin("glReadPixels"), N(x), N(y), N(w), N(h), G(format), G(type);
    real.glReadPixels(x, y, w, h, format, type, bytes);
    if (end_gl()) {
        log_text("0");
        if (pixel != 0 && w > 0 && h > 0 && me.context != NULL && bytes != NULL) put_pixels(w, h, pixel, bytes);
    }
    close_line();
    leave();
}
