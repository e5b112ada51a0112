/* The file in which a program keeps its bytes: opened as its only writer, loaded, and written at a place. Where any of it fails the program ends, in words; `what`
 * is what the file is for it, a book or a log. */
#ifndef FILES_H
#define FILES_H

#include <stdbool.h>
#include <stddef.h>
#include <stdint.h>

/* Opens a file, for reading alone, or as its only writer and made where it is missing. What is no plain file is refused, and so is what a standard stream reads
 * or writes. */
int open_file(const char *path, bool to_write, const char *what);

/* Loads the file, as far as there is room, and answers how many bytes it was. */
size_t load_file(int file, uint8_t *bytes, size_t room, const char *what);

/* Writes the bytes from one place to another into the file, at the same places. */
void write_file(int file, const uint8_t *bytes, size_t from, size_t to, const char *what);

/* Has what was written flushed to the disk. */
void flush_file(int file, const char *what);

/* Cuts the file to a length. */
void cut_file(int file, size_t length, const char *what);

#endif
