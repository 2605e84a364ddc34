#include "driver.h"

#include <dlfcn.h>
#include <stdlib.h>
#include <string.h>

#include "egl_words.h"
#include "log.h"

// The calls before EGL 1.5, by their extensions: attributes are numbers of 32 bits there.
static void *(*create_sync)(void *, unsigned, const int *);
static unsigned (*sync_attribute)(void *, void *, int, int *);
static void *(*create_image)(void *, void *, unsigned, void *, const int *);

// A list of attributes with numbers of 32 bits.
static int *narrow(const intptr_t *list, int *numbers, int most) {
    int count = 0;
    for (; count < most - 1 && list[count] != EGL_NONE; count += 2)
        numbers[count] = (int)list[count], numbers[count + 1] = (int)list[count + 1];
    numbers[count] = EGL_NONE;
    return numbers;
}

static void *old_create_sync(void *display, unsigned type, const intptr_t *list) {
    int numbers[65];
    return create_sync(display, type, narrow(list, numbers, 65));
}

static unsigned old_sync_attribute(void *display, void *sync, int attribute, intptr_t *value) {
    int number = 0;
    unsigned done = sync_attribute(display, sync, attribute, &number);
    *value = number;
    return done;
}

static void *old_create_image(void *display, void *context, unsigned target, void *buffer, const intptr_t *list) {
    int numbers[65];
    return create_image(display, context, target, buffer, narrow(list, numbers, 65));
}

// dlsym answers a pointer to bytes, and C has no conversion of it to a call.
#define SET(call, pointer) memcpy(&(call), &(void *){pointer}, sizeof(void *))

static void *egl_library, *gles_library;
static void *(*by_name)(const char *);

void *driver_call(const char *name) {
    void *found = dlsym(strncmp(name, "egl", 3) == 0 ? egl_library : gles_library, name);
    return found != NULL || by_name == NULL ? found : by_name(name);
}

const char *open_driver(struct calls *calls, const char *egl, const char *gles) {
    egl_library = dlopen(egl, RTLD_NOW | RTLD_GLOBAL);
    if (egl_library == NULL) return dlerror();
    gles_library = dlopen(gles, RTLD_NOW | RTLD_GLOBAL);
    if (gles_library == NULL) return dlerror();
    SET(by_name, dlsym(egl_library, "eglGetProcAddress"));
#define FIND(returns, name, types, forms) SET(calls->name, driver_call(#name));
    CALLS(FIND)
#undef FIND
    SET(create_sync, driver_call("eglCreateSyncKHR"));
    SET(sync_attribute, driver_call("eglGetSyncAttribKHR"));
    SET(create_image, driver_call("eglCreateImageKHR"));
    if (calls->eglCreateSync == NULL && create_sync != NULL) calls->eglCreateSync = old_create_sync;
    if (calls->eglGetSyncAttrib == NULL && sync_attribute != NULL) calls->eglGetSyncAttrib = old_sync_attribute;
    if (calls->eglCreateImage == NULL && create_image != NULL) calls->eglCreateImage = old_create_image;
    if (calls->eglDestroySync == NULL) SET(calls->eglDestroySync, driver_call("eglDestroySyncKHR"));
    if (calls->eglClientWaitSync == NULL) SET(calls->eglClientWaitSync, driver_call("eglClientWaitSyncKHR"));
    if (calls->eglWaitSync == NULL) SET(calls->eglWaitSync, driver_call("eglWaitSyncKHR"));
    if (calls->eglDestroyImage == NULL) SET(calls->eglDestroyImage, driver_call("eglDestroyImageKHR"));
    if (calls->eglGetDisplay == NULL || calls->eglInitialize == NULL || calls->eglGetConfigs == NULL || calls->eglGetConfigAttrib == NULL ||
        calls->eglGetError == NULL)
        return "it lacks calls of EGL 1.0";
    return calls->glGetError == NULL || calls->glGetIntegerv == NULL ? "it lacks calls of OpenGL ES 1.0" : NULL;
}

int usual_surfaces = EGL_PBUFFER_BIT;

static int attribute(const struct calls *calls, void *display, void *config, int name) {
    int value = 0;
    calls->eglGetConfigAttrib(display, config, name, &value);
    return value;
}

int list_configs(const struct calls *calls, void *display, struct config *configs, void **handles) {
    static const int sizes[6] = {EGL_RED_SIZE, EGL_GREEN_SIZE, EGL_BLUE_SIZE, EGL_ALPHA_SIZE, EGL_DEPTH_SIZE, EGL_STENCIL_SIZE};
    int count = 0;
    if (!calls->eglGetConfigs(display, handles, MOST_CONFIGS, &count)) count = 0;
    for (int k = 0; k < count; k++) {
        configs[k].id = attribute(calls, display, handles[k], EGL_CONFIG_ID);
        for (int size = 0; size < 6; size++) configs[k].sizes[size] = attribute(calls, display, handles[k], sizes[size]);
        configs[k].usual = (attribute(calls, display, handles[k], EGL_SURFACE_TYPE) & usual_surfaces) == usual_surfaces &&
                           (attribute(calls, display, handles[k], EGL_RENDERABLE_TYPE) & EGL_OPENGL_ES_BIT) != 0 &&
                           attribute(calls, display, handles[k], EGL_SAMPLES) == 0 &&
                           attribute(calls, display, handles[k], EGL_CONFIG_CAVEAT) == EGL_NONE;
    }
    calls->eglGetError();
    return count;
}

void log_configs(const struct config *configs, int count) {
    for (int usual = 1; usual >= 0; usual--)
        for (int k = 0; k < count; k++) {
            if (configs[k].usual != usual) continue;
            log_text("config ");
            log_number(configs[k].id);
            for (int size = 0; size < 6; size++) log_text(" "), log_number(configs[k].sizes[size]);
            log_text("\n");
        }
}

int64_t config_for(const struct config *configs, int count, int64_t ours) {
    static const int sizes[7][6] = {{5, 6, 5, 0, 0, 0}, {5, 6, 5, 0, 16, 0}, {8, 8, 8, 0, 0, 0}, {8, 8, 8, 8, 0, 0}, {8, 8, 8, 8, 24, 8},
        {4, 4, 4, 4, 0, 0}, {5, 5, 5, 1, 0, 0}};
    // The eighth has the sizes of the fourth, which is the first with them.
    if (ours < 1 || ours > 7) return -1;
    for (int usual = 1; usual >= 0; usual--)
        for (int k = 0; k < count; k++)
            if (configs[k].usual == usual && memcmp(configs[k].sizes, sizes[ours - 1], sizeof sizes[0]) == 0) return configs[k].id;
    return -1;
}
