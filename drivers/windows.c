// Windows of X11. Xlib is opened at run time, and of its types only what is used stands here, as its headers have it for all machines.
#define _GNU_SOURCE
#include "windows.h"

#include <dlfcn.h>
#include <pthread.h>
#include <stdlib.h>
#include <string.h>

struct visual_info {
    void *visual;
    unsigned long id;
    int screen, depth, class;
    unsigned long red, green, blue;
    int colours, bits;
};

struct attributes {
    unsigned long background_pixmap, background, border_pixmap, border;
    int bit_gravity, gravity, backing_store;
    unsigned long backing_planes, backing_pixel;
    int save_under;
    long events, not_propagated;
    int unmanaged;
    unsigned long colours, cursor;
};

struct image {
    int width, height, offset, format;
    char *bytes;
    int byte_order, unit, bit_order, pad, depth, row, bits;
    unsigned long red, green, blue;
};

#define XLIB(CALL) \
    CALL(int, XInitThreads, (void)) \
    CALL(void *, XOpenDisplay, (const char *)) \
    CALL(int, XDefaultScreen, (void *)) \
    CALL(int, XDisplayWidth, (void *, int)) \
    CALL(unsigned long, XRootWindow, (void *, int)) \
    CALL(void *, XSetErrorHandler, (int (*)(void *, void *))) \
    CALL(struct visual_info *, XGetVisualInfo, (void *, long, struct visual_info *, int *)) \
    CALL(int, XMatchVisualInfo, (void *, int, int, int, struct visual_info *)) \
    CALL(unsigned long, XCreateColormap, (void *, unsigned long, void *, int)) \
    CALL(unsigned long, XCreateWindow, \
        (void *, unsigned long, int, int, unsigned, unsigned, unsigned, int, unsigned, void *, unsigned long, struct attributes *)) \
    CALL(int, XMapRaised, (void *, unsigned long)) \
    CALL(int, XSync, (void *, int)) \
    CALL(struct image *, XGetImage, (void *, unsigned long, int, int, unsigned, unsigned, unsigned long, int)) \
    CALL(unsigned long, XGetPixel, (struct image *, int, int)) \
    CALL(int, XDestroyImage, (struct image *)) \
    CALL(int, XFree, (void *))

#define POINTER(returns, name, types) returns(*name) types;
static struct { XLIB(POINTER) } x;
#undef POINTER

#define BY_ID 1
#define TRUE_COLOUR 4
#define SERVER_DRAWS 1
#define BACKGROUND 2
#define BORDER 8
#define UNMANAGED 512
#define COLOURS 8192
#define WHOLE_PIXELS 2

static void *server;
static pthread_mutex_t lock = PTHREAD_MUTEX_INITIALIZER;

// An error of a request is the driver's matter: Xlib would end the program.
static int on_error(void *display, void *event) {
    (void)display, (void)event;
    return 0;
}

int open_windows(void) {
    const char *platform = getenv("EGL_PLATFORM");
    if (server != NULL || platform == NULL || strcmp(platform, "x11") != 0) return server != NULL;
    void *library = dlopen("libX11.so.6", RTLD_NOW | RTLD_GLOBAL);
    if (library == NULL) return 0;
#define FIND(returns, name, types) \
    memcpy(&x.name, &(void *){dlsym(library, #name)}, sizeof(void *)); \
    if (x.name == NULL) return 0;
    XLIB(FIND)
#undef FIND
    x.XInitThreads();
    server = x.XOpenDisplay(NULL);
    if (server != NULL) x.XSetErrorHandler(on_error);
    return server != NULL;
}

int has_windows(void) { return server != NULL; }
void *native_display(void) { return server; }

static int find_visual(int visual, int alpha, struct visual_info *found) {
    int count = 0;
    struct visual_info wanted = {.id = (unsigned long)visual}, *all;
    if (alpha > 0 && x.XMatchVisualInfo(server, x.XDefaultScreen(server), 32, TRUE_COLOUR, found)) return 1;
    all = x.XGetVisualInfo(server, BY_ID, &wanted, &count);
    // A config of a display that isn't initialised has no visual.
    if (all == NULL) return x.XMatchVisualInfo(server, x.XDefaultScreen(server), 24, TRUE_COLOUR, found);
    *found = all[0];
    x.XFree(all);
    return count > 0;
}

// Each has a place of its own on the screen: what another hides isn't kept.
unsigned long make_window(int visual, int alpha, int width, int height) {
    static int column, row, highest;
    struct visual_info info;
    if (!find_visual(visual, alpha, &info)) return 0;
    int screen = x.XDefaultScreen(server);
    unsigned long root = x.XRootWindow(server, screen);
    if (column > 0 && column + width > x.XDisplayWidth(server, screen)) column = 0, row += highest, highest = 0;
    struct attributes attributes = {.unmanaged = 1, .colours = x.XCreateColormap(server, root, info.visual, 0)};
    unsigned long window = x.XCreateWindow(server, root, column, row, (unsigned)width, (unsigned)height, 0, info.depth, SERVER_DRAWS,
        info.visual, BACKGROUND | BORDER | UNMANAGED | COLOURS, &attributes);
    x.XMapRaised(server, window);
    x.XSync(server, 0);
    column += width;
    if (highest < height) highest = height;
    return window;
}

static unsigned char component(unsigned long pixel, unsigned long mask) {
    if (mask == 0) return 255;
    unsigned long low = mask & (~mask + 1), most = mask / low;
    return (unsigned char)((2 * (pixel & mask) / low * 255 + most) / (2 * most));
}

static int copy_image(struct image *image, int alpha, int width, int height, unsigned char *pixels) {
    // A window without alpha can't tell that of its surface.
    if (alpha > 0 && image->depth != 32) return 0;
    unsigned long rest = alpha > 0 ? 0xFFFFFFFFul & ~(image->red | image->green | image->blue) : 0;
    for (int k = 0; k < width * height; k++) {
        unsigned long pixel = x.XGetPixel(image, k % width, height - 1 - k / width);
        const unsigned long masks[4] = {image->red, image->green, image->blue, rest};
        for (int part = 0; part < 4; part++) pixels[4 * k + part] = component(pixel, masks[part]);
    }
    return 1;
}

int read_window(unsigned long window, int alpha, int width, int height, unsigned char *pixels) {
    pthread_mutex_lock(&lock);
    x.XSync(server, 0);
    struct image *image = x.XGetImage(server, window, 0, 0, (unsigned)width, (unsigned)height, ~0ul, WHOLE_PIXELS);
    int told = image != NULL && copy_image(image, alpha, width, height, pixels);
    if (image != NULL) x.XDestroyImage(image);
    pthread_mutex_unlock(&lock);
    return told;
}
