// The windows of a platform that has some.
#ifndef WINDOWS_H
#define WINDOWS_H

// Opens the X server where EGL_PLATFORM is x11, once for a process. Answers whether there are windows; without them pbuffers stand in.
int open_windows(void);
int has_windows(void);
// What eglGetDisplay gets for the default display.
void *native_display(void);
// A window that is shown, for a config of this visual, with alpha where the config has it and the server too; 0 where there is none.
unsigned long make_window(int visual, int alpha, int width, int height);
// What a window shows as red, green, blue and alpha, the lowest row first. Answers 0 where it can't be told.
int read_window(unsigned long window, int alpha, int width, int height, unsigned char *pixels);

#endif
