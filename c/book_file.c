/* The day book and its file. */
#define _XOPEN_SOURCE 700
#include "book_file.h"

#include "files.h"
#include "tell.h"

#include <fcntl.h>
#include <stdlib.h>
#include <string.h>
#include <unistd.h>

size_t book_length(const struct day_book *book) { return number_at(book->state.bytes + BOE_STATE_LENGTH_AT); }

uint32_t book_messages(const struct day_book *book) { return number_at(book->state.bytes + BOE_STATE_MESSAGES_AT); }

void open_book(struct day_book *book, const char *path, bool to_write) { book->file = open_file(path, to_write, "book"); }

size_t load_book(struct day_book *book) { return load_file(book->file, book->bytes, sizeof book->bytes, "book"); }

void store_book(struct day_book *book) {
    size_t end = book_length(book);
    write_file(book->file, book->bytes, book->stored, end, "book");
    book->stored = end;
}

void flush_book(struct day_book *book) {
    if (book->flushed == book->stored) return;
    flush_file(book->file, "book");
    book->flushed = book->stored;
}

/* Flushes the directory in which the file stands: a new file is not there after a loss of power until that is done. An earlier start may
 * have been killed before it, so each does it. */
static void flush_directory(const char *path) {
    char *real = realpath(path, NULL);
    if (!real) fail(path);
    strrchr(real, '/')[1] = 0;
    int directory = open(real, O_RDONLY | O_DIRECTORY | O_CLOEXEC);
    if (directory < 0 || fsync(directory) != 0 || close(directory) != 0) fail(real);
    free(real);
}

/* Not even the first mark may be whole: then the book is opened afresh. The torn tail must go, and not only be written over: the next thing at its place may
 * be shorter, and what then stuck out behind it would make the next restart 18. Every other refusal is the caller's to end on: after a 17 the table would be
 * last night's. */
unsigned take_up_book(struct day_book *book, uint32_t date, uint8_t market, const char *path) {
    size_t held = load_book(book);
    unsigned refusal = boe_session_restart(date, market, book->bytes, held, &book->state, sizeof book->state);
    bool fresh = refusal == BOE_NO_FIRST_MARK;
    if (fresh) refusal = boe_session_open(date, market, book->bytes, book->room, &book->state, sizeof book->state);
    if (refusal) return refusal;
    if (fresh) store_book(book);
    book->stored = book_length(book);
    if (book->stored < held) {
        cut_file(book->file, book->stored, "book");
        tell("cut %zu torn bytes", held - book->stored);
    }
    flush_file(book->file, "book");
    book->flushed = book->stored;
    flush_directory(path);
    tell("book %s %s: messages %lu length %zu", path, fresh ? "opened" : "restarted", (unsigned long)book_messages(book), book->stored);
    return 0;
}

/* Up to the good length every byte belongs to a whole message or a mark, and what framing does not take is a mark. */
size_t next_message(const struct day_book *book, size_t *at) {
    size_t end = book_length(book);
    for (; *at < end; *at += BOE_MARK_BYTES) {
        size_t length = boe_frame_length(book->bytes + *at, end - *at);
        if (length) return length;
    }
    return 0;
}
