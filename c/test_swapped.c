/* Calls with two buffers in each other's place, one for each number of SWAPPED: the compiler must refuse each. 0 is the control, in which all
 * stand in their places. */
#include "boe.h"

uint32_t call(const uint8_t *bytes, uint8_t *buffer, struct boe_record *record, struct boe_state *state, const struct boe_state *kept,
              struct boe_session *session, struct boe_venue *venue, const struct boe_login *login, uint32_t *told);

uint32_t call(const uint8_t *bytes, uint8_t *buffer, struct boe_record *record, struct boe_state *state, const struct boe_state *kept,
              struct boe_session *session, struct boe_venue *venue, const struct boe_login *login, uint32_t *told) {
    (void)bytes, (void)buffer, (void)record, (void)state, (void)kept, (void)session, (void)venue, (void)login, (void)told;
#if SWAPPED == 0
    return boe_table_step(1, 1, buffer, 1) || boe_read(0, bytes, 1, record, sizeof *record) || boe_write(0, record, sizeof *record, buffer, 1) ||
           boe_book_open(1, buffer, 1, state, sizeof *state) || boe_book_append(bytes, 1, buffer, 1, state, sizeof *state) ||
           boe_book_close(buffer, 1, state, sizeof *state) || boe_restart(1, bytes, 1, state, sizeof *state) || boe_told(1) ||
           boe_last_refusal(1, bytes, 1, kept, sizeof *kept) || boe_last_at(1, bytes, 1, kept, sizeof *kept) || boe_last_length(1, bytes, 1, kept, sizeof *kept) ||
           boe_session_open(1, 0, buffer, 1, session, sizeof *session) || boe_session_restart(1, 0, bytes, 1, session, sizeof *session) ||
           boe_session_login(login, sizeof *login, buffer, 1, session, sizeof *session) ||
           boe_session_receive(bytes, 1, told, buffer, 1, session, sizeof *session) ||
           boe_session_order(record, sizeof *record, buffer, 1, session, sizeof *session) ||
           boe_session_heartbeat(session, sizeof *session, buffer, 1) || boe_session_break(buffer, 1, session, sizeof *session) ||
           boe_session_phase(session, sizeof *session) || boe_venue_new(venue, sizeof *venue) || boe_venue_log(bytes, 1, buffer, 1, venue, sizeof *venue) ||
           boe_venue_login(bytes, 1, told, buffer, 1, venue, sizeof *venue) || boe_venue_step(bytes, 1, told, buffer, 1, venue, sizeof *venue) ||
           boe_venue_order(0, bytes, 1, venue, sizeof *venue) || boe_venue_break(venue, sizeof *venue);
#elif SWAPPED == 1
    return boe_read(0, record, sizeof *record, bytes, 1);
#elif SWAPPED == 2
    return boe_write(0, buffer, 1, record, sizeof *record);
#elif SWAPPED == 3
    return boe_book_open(1, state, sizeof *state, buffer, 1);
#elif SWAPPED == 4
    return boe_book_append(bytes, 1, state, sizeof *state, buffer, 1);
#elif SWAPPED == 5
    return boe_book_append(state, sizeof *state, buffer, 1, bytes, 1);
#elif SWAPPED == 6
    return boe_book_append(buffer, 1, bytes, 1, state, sizeof *state);
#elif SWAPPED == 7
    return boe_book_close(state, sizeof *state, buffer, 1);
#elif SWAPPED == 8
    return boe_restart(1, state, sizeof *state, bytes, 1);
#elif SWAPPED == 9
    return boe_read(0, bytes, 1, state, sizeof *state);
#elif SWAPPED == 10
    return boe_restart(1, bytes, 1, record, sizeof *record);
#elif SWAPPED == 11
    return boe_table_step(1, 1, state, sizeof *state);
#elif SWAPPED == 12
    return boe_told(bytes);
#elif SWAPPED == 13
    return boe_told(record);
#elif SWAPPED == 14
    return boe_last_refusal(1, kept, sizeof *kept, bytes, 1);
#elif SWAPPED == 15
    return boe_last_at(1, kept, sizeof *kept, bytes, 1) != 0;
#elif SWAPPED == 16
    return boe_last_length(1, kept, sizeof *kept, bytes, 1) != 0;
#elif SWAPPED == 17
    return boe_last_refusal(1, bytes, 1, record, sizeof *record);
#elif SWAPPED == 18
    return boe_book_append(bytes, 1, buffer, 1, kept, sizeof *kept);
#elif SWAPPED == 19
    return boe_session_open(1, 0, session, sizeof *session, buffer, 1);
#elif SWAPPED == 20
    return boe_session_restart(1, 0, session, sizeof *session, bytes, 1);
#elif SWAPPED == 21
    return boe_session_login(bytes, 1, buffer, 1, session, sizeof *session);
#elif SWAPPED == 22
    return boe_session_login(login, sizeof *login, session, sizeof *session, buffer, 1);
#elif SWAPPED == 23
    return boe_session_receive(bytes, 1, buffer, 1, told, session, sizeof *session);
#elif SWAPPED == 24
    return boe_session_receive(bytes, 1, told, buffer, 1, state, sizeof *state);
#elif SWAPPED == 25
    return boe_session_order(bytes, 1, buffer, 1, session, sizeof *session);
#elif SWAPPED == 26
    return boe_session_heartbeat(buffer, 1, session, sizeof *session);
#elif SWAPPED == 27
    return boe_session_break(session, sizeof *session, buffer, 1);
#elif SWAPPED == 28
    return boe_book_close(buffer, 1, session, sizeof *session);
#elif SWAPPED == 29
    return boe_session_break(buffer, 1, venue, sizeof *venue);
#elif SWAPPED == 30
    return boe_venue_log(bytes, 1, venue, sizeof *venue, buffer, 1);
#elif SWAPPED == 31
    return boe_venue_step(bytes, 1, told, buffer, 1, session, sizeof *session);
#elif SWAPPED == 32
    return boe_venue_order(0, venue, sizeof *venue, bytes, 1);
#else
#error "no such number"
#endif
}
