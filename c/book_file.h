/* The day book of a gateway, in memory and in its file, which a restart takes after any kill. */
#ifndef BOOK_FILE_H
#define BOOK_FILE_H

#include "boe.h"

/* What stands in the file is what stands here. The buffer has one byte more than a book may have: a longer file is then longer here too, and restart
 * refuses it. */
struct day_book {
    int file;
    size_t room;             /* how many bytes the book may grow to, at most BOE_BOOK_MOST_BYTES */
    size_t stored, flushed;  /* how many of the book's bytes the file has, and how many of these the disk has */
    struct boe_session state;
    uint8_t bytes[BOE_BOOK_MOST_BYTES + 1];
};

/* Opens the book's file, for reading alone or as its only writer. What is no plain file is no book, and nor is what a standard stream reads or writes. Where it
 * cannot be had the program ends, in words. */
void open_book(struct day_book *book, const char *path, bool to_write);

/* Loads the file into the buffer, as far as that goes, and answers how many bytes it was. */
size_t load_book(struct day_book *book);

/* Takes up the book of a date for a market: restarts from what the file holds and cuts its torn tail off, or opens a new book. The answer is the refusal that
 * leaves nothing to do with this book, or 0. */
unsigned take_up_book(struct day_book *book, uint32_t date, uint8_t market, const char *path);

/* Writes the book's new bytes into the file, at their place; and has what was written flushed to the disk. */
void store_book(struct day_book *book);
void flush_book(struct day_book *book);

/* The book's length and messages, as its state has them. */
size_t book_length(const struct day_book *book);
uint32_t book_messages(const struct day_book *book);

/* The next message of the book from a place on: its length, or 0 at the book's end. The place becomes that of the message. */
size_t next_message(const struct day_book *book, size_t *at);

#endif
