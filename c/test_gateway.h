/* What the parts of the C test share. */
#ifndef TEST_GATEWAY_H
#define TEST_GATEWAY_H

#include "boe.h"

#include <stdio.h>

/* test_gateway.c: counts a check, and tells of one that fails. */
void check(int ok, const char *what);
/* The same of the answer to the question of a line. */
void check_answer(unsigned long line, const char *expected, const char *got);

#define COUNT_OF(array) (sizeof array / sizeof *array)

uint32_t number_at(const uint8_t *p);
/* Stores a number's bytes, the lowest first. */
void put(uint8_t *at, unsigned len, uint64_t value);
/* A unit's number in a table, or its place in the places of a state. */
uint32_t entry(const uint8_t *table, unsigned unit);
/* The bytes of the record of a type. */
size_t record_len(uint8_t type);
int all_are(const uint8_t *bytes, size_t len, uint8_t byte);
int same_bytes(const uint8_t *a, const uint8_t *b, size_t n);
/* What a call answers that refuses with a number and a place. */
uint32_t refused_at(enum boe_refusal number, unsigned place);

/* The words of the stored questions, scripts and answers. The bytes of a word in hex, at most `most`, and how many they are, or -1 where it is no such word. */
long bytes_of(const char *word, uint8_t *out, size_t most);
/* Bytes as a word, and a refusal as one, its number and after an @ its place where it has one: each answers the characters that it has put. */
int hex_word(const uint8_t *bytes, size_t n, char *out);
int refusal_word(uint32_t refusal, char *out);

/* test_cases.c */
void hand_made_cases(void);

/* test_last.c */
void last_messages(void);

/* test_questions.c */
void stored_questions(FILE *questions, FILE *answers);

/* test_fields.c: reads the questions and answers from their beginning. */
void fields_by_name(FILE *questions, FILE *answers);

/* test_scripts.c */
void stored_scripts(FILE *scripts, FILE *answers);
void pulse_and_version(void);

#endif
