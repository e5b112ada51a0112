/* The plain C reader, writer, restart, append and receive. The arguments, the answers with their places and the order of refusal are those of
 * boe_read, boe_write, boe_restart, boe_book_append and boe_session_receive, save that records and states are plain bytes, and that to the reader,
 * the writer and receive a session message is of an unknown type. */
#ifndef BASELINE_H
#define BASELINE_H

#include <stddef.h>
#include <stdint.h>

uint32_t base_read(uint8_t direction, const uint8_t *bytes, size_t len, uint8_t *record, size_t record_len);
uint32_t base_write(uint8_t direction, const uint8_t *record, size_t record_len, uint8_t *out, size_t out_len);
uint32_t base_restart(uint32_t date, const uint8_t *bytes, size_t len, uint8_t *state, size_t state_len);
uint32_t base_append(const uint8_t *bytes, size_t len, uint8_t *buffer, size_t buffer_len, uint8_t *state, size_t state_len);
uint32_t base_receive(const uint8_t *bytes, size_t len, uint32_t *fate, uint8_t *buffer, size_t buffer_len, uint8_t *state, size_t state_len);

#endif
