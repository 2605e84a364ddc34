// A driver's log as it is written: lines in a buffer, and what is done when the program dies.
#ifndef LOG_H
#define LOG_H

#include <stddef.h>
#include <stdint.h>

// Begins a log that goes to an open file. It is written when there is much of it, by log_flush, and on a deadly signal.
void log_to(int file);
// What stands before all lines, and hasn't been written yet. While it is held back, lines are only written where the program dies.
void log_head(const char *head, int held_back);
// Whether the head is written.
int log_head_written(void);
// Writes the lines that are complete. Answers 0 once a write has failed.
int log_flush(void);

void log_bytes(const char *bytes, size_t count);
void log_text(const char *text);
void log_number(long long number);
void log_unsigned(unsigned long long number);
// Bytes in hexadecimal digits, `-` for none.
void log_digits(const unsigned char *bytes, size_t count);
// A number of the standard by its name, in decimal where it has none. GL_NONE_OES and GL_NO_ERROR are both 0: only `log_gl_error` writes
// the latter.
void log_egl_name(long long number);
void log_gl_name(long long number);
void log_gl_error(unsigned number);

// From here to `log_close` a line is open: a call is under way. It lacks its end where the program dies.
void log_open(void);
// Ends the line.
void log_close(void);
// Takes the open line back: its text so far, with a zero behind it, which the caller frees.
char *log_take(void);
// What this thread waits for outside of the order of lines: the text of a line without its end, which stands as the open line where it dies
// there.
void log_waits(const char *line);
// Ends the log with the open line and `crash WORD`; where no line is open, with that as a comment.
void log_cut(const char *word);
// From here on deadly signals end the log so. What is done behind that is the signal's own act where `status` is 0, else the end of the
// program with that status.
void log_on_signals(int status);
// The word of a deadly signal.
const char *log_signal(int number);
// Each further thread gives its handlers a stack of its own.
void log_in_thread(void);

// The place of a word in the list of names, and its number by the standard; -1 where it is none.
int word_place(const char *word, size_t length);
extern const char *const word_names[];
extern const unsigned word_numbers[];

#endif
