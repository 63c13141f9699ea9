/*
 * The proved pending flow cache, output preflight and decoded-output budget: the functions of
 * libnetflow_pending.a.
 *
 * Every function returns a number of enum netflow_number: 0, or why it was refused. Values are
 * written where the number is 0; beside any other number they stay as they were, but for the excess
 * of a reservation.
 *
 * No pointer may be null, also where the length beside it is 0; no bytes are read then. Memory that
 * is not const overlaps no other memory of the same call. Nothing is allocated, nothing is kept
 * between calls, and no function fails to return.
 *
 * size_t has 64 bits: the archive is for x86-64. It needs memmove and memset, and nothing else.
 */
#ifndef NETFLOW_PENDING_H
#define NETFLOW_PENDING_H

#include <stddef.h>
#include <stdint.h>

#ifdef __cplusplus
extern "C" {
#endif

/* ---- numbers ------------------------------------------------------------------------------- */

enum netflow_number {
    NETFLOW_DONE = 0,

    /* from the input */
    NETFLOW_NO_TEMPLATES = 1,       /* max_pending_flows is 0 */
    NETFLOW_NO_ENTRIES = 2,         /* max_entries_per_template is 0 */
    NETFLOW_ENTRY_SIZE = 3,         /* max_entry_size_bytes is 0 or above 65,531 */
    NETFLOW_TOTAL_BYTES = 4,        /* max_total_bytes is 0 or below max_entry_size_bytes */
    NETFLOW_AREAS = 5,              /* limits above what these areas, or any areas, hold */
    NETFLOW_TOO_LONG = 6,           /* a body longer than max_entry_size_bytes */
    NETFLOW_INVALID = 7,            /* no valid framing, or a decoder that differs from the preflight */
    NETFLOW_NEVER_FITS = 8,         /* a cost above the whole budget */
    NETFLOW_ZERO_RECORDS = 9,       /* a record limit of 0 */
    NETFLOW_ZERO_FIELD_VALUES = 10, /* a limit of 0 field values */
    NETFLOW_ZERO_PAYLOAD_BYTES = 11, /* a limit of 0 payload bytes */
    NETFLOW_OVERSIZED = 12,         /* a body over 65,531 bytes, or over 65,535 widths */

    /* from the state */
    NETFLOW_TEMPLATE_FULL = 20,     /* the template holds max_entries_per_template bodies */
    NETFLOW_OVER_TOTAL = 21,        /* no template left to evict: proved to be never answered */
    NETFLOW_TEMPORARILY_DOES_NOT_FIT = 22, /* a cost above what remains of the budget */
    NETFLOW_VALUES_EXCEEDED = 23,   /* a reservation past the limit of field values */
    NETFLOW_PAYLOAD_EXCEEDED = 24,  /* a reservation past the limit of payload bytes */
    NETFLOW_NO_CHANCE = 25,         /* no chance of a put-back, or more bodies than were handed out */
    NETFLOW_ABOVE_USE = 26,         /* a rollback to more than is in use */
    NETFLOW_NOT_HANDED_OUT = 27,    /* no handed-out body with this number */
    NETFLOW_DAMAGED = 28            /* the areas hold no well-formed cache */
};

/* ---- the preflight of a body --------------------------------------------------------------- */

/*
 * A body is what follows the 4-byte header of a data set; widths are those of its template's fields.
 * 0 writes field values, payload bytes and the length of the remainder. Refused, tested in this
 * order: 9, 12, 7.
 */

/* above these 12 */
#define NETFLOW_PREFLIGHT_MAX_BODY 65531
#define NETFLOW_PREFLIGHT_MAX_WIDTHS 65535

/* the width of a field of variable length, in that reading alone; in both others a plain width */
#define NETFLOW_VARIABLE_LENGTH 65535

/* NetFlow v9: a remainder of up to 3 bytes that is shorter than a record. */
uint32_t netflow_preflight_v9_fixed(const uint8_t *body, size_t body_len, const uint16_t *widths,
                                    size_t widths_len, size_t max_records, uint64_t cost[3]);

/* IPFIX without fields of variable length: a remainder that is shorter than a record. */
uint32_t netflow_preflight_ipfix_fixed(const uint8_t *body, size_t body_len,
                                       const uint16_t *widths, size_t widths_len,
                                       size_t max_records, uint64_t cost[3]);

/* IPFIX in which a field of width NETFLOW_VARIABLE_LENGTH begins with its own length. */
uint32_t netflow_preflight_ipfix_variable(const uint8_t *body, size_t body_len,
                                          const uint16_t *widths, size_t widths_len,
                                          size_t max_records, uint64_t cost[3]);

/* ---- the pending flow cache ---------------------------------------------------------------- */

/*
 * A cache lives in two areas that the caller lends to each call: words and bytes, always the same
 * ones, which nobody else writes in between. docs/LAYOUT.md says what stands in them.
 *
 * A clock reading is a count of nanoseconds. A body's age is the reading less that of its offer, or
 * 0 if the reading is the earlier one. It is expired where a TTL is set and its age is at least the
 * TTL; so a TTL of 0 expires everything.
 *
 * Every function that is lent the areas, but for opening, answers 28 first, and changes nothing,
 * where they hold no well-formed cache.
 */

/* the highest limits that there are */
#define NETFLOW_PENDING_MAX_TEMPLATES 1024
#define NETFLOW_PENDING_MAX_BODIES 262144 /* max_pending_flows x max_entries_per_template */
#define NETFLOW_PENDING_MAX_ENTRY_SIZE 65531
#define NETFLOW_PENDING_MAX_TOTAL_BYTES 67108864

/* the words and bytes that a cache with these limits needs */
#define NETFLOW_PENDING_WORDS(max_pending_flows, max_entries_per_template)                         \
    ((size_t)64 + (size_t)8 * (max_pending_flows) +                                                \
     (size_t)4 * ((size_t)(max_pending_flows) * (size_t)(max_entries_per_template)))
#define NETFLOW_PENDING_BYTES(max_total_bytes) ((size_t)(max_total_bytes))

/* Whether a cache can be opened with these limits in areas of these lengths. Refused: 1 to 5. */
uint32_t netflow_pending_validate_config(size_t words_len, size_t bytes_len,
                                         size_t max_pending_flows, size_t max_entries_per_template,
                                         size_t max_entry_size_bytes, size_t max_total_bytes);

/*
 * Opens an empty cache in areas with any content, unset memory too (of automatic arrays that were
 * never set compilers may warn; static ones are set). No TTL where has_ttl is 0; else bodies expire
 * at an age of ttl nanoseconds. Refused, with nothing changed: 1 to 5.
 */
uint32_t netflow_pending_open(uint64_t *words, size_t words_len, const uint8_t *bytes,
                              size_t bytes_len, size_t max_pending_flows,
                              size_t max_entries_per_template, size_t max_entry_size_bytes,
                              size_t max_total_bytes, uint32_t has_ttl, uint64_t ttl);

/*
 * Offers a body, which is copied into the byte area. Other bodies may go: the least recent
 * templates where there is no room, and expired bodies; each adds one to pending_dropped. Refused:
 * 28; 6 and 20, which add one to pending_dropped too.
 */
uint32_t netflow_pending_cache(uint64_t *words, size_t words_len, uint8_t *bytes, size_t bytes_len,
                               uint16_t id, const uint8_t *body, size_t body_len, uint64_t clock);

/*
 * Removes an id, drops its expired bodies and hands out the others, oldest first: 0 writes how many
 * (0 for an id that is not held). They can be read, by netflow_pending_place_handed_out, and put
 * back until the next offer, drain, resize or clear, or a put-back of them; such a call that is
 * refused with another number than 20 changes nothing of that. Refused: 28.
 */
uint32_t netflow_pending_drain(uint64_t *words, size_t words_len, const uint8_t *bytes,
                               size_t bytes_len, uint16_t id, uint64_t clock,
                               uint64_t *handed_out);

/*
 * Puts the last `count` handed-out bodies back as the newest template; the counters stay. 0 bodies
 * succeed for any id and change nothing. Refused, with nothing changed: 28, 25.
 */
uint32_t netflow_pending_restore_replay_suffix(uint64_t *words, size_t words_len,
                                               const uint8_t *bytes, size_t bytes_len, uint16_t id,
                                               size_t count);

/*
 * Changes the limits and drops the bodies that they leave no room for: 0 writes how many, which
 * pending_dropped rises by. The areas must be long enough for both limits. Refused, with nothing
 * changed: 28, 1 to 5.
 */
uint32_t netflow_pending_resize(uint64_t *words, size_t words_len, uint8_t *bytes,
                                size_t bytes_len, size_t max_pending_flows,
                                size_t max_entries_per_template, size_t max_entry_size_bytes,
                                size_t max_total_bytes, uint32_t has_ttl, uint64_t ttl,
                                uint64_t *dropped);

/* Empties the cache and leaves its counters. Refused: 28. */
uint32_t netflow_pending_clear(uint64_t *words, size_t words_len, const uint8_t *bytes,
                               size_t bytes_len);

/*
 * 0 writes 1 where an offer of this id and length at this clock reading is accepted; it writes 0
 * where such an offer may be accepted or refused. Changes nothing. Refused: 28.
 */
uint32_t netflow_pending_would_accept(const uint64_t *words, size_t words_len,
                                      const uint8_t *bytes, size_t bytes_len, uint16_t id,
                                      size_t length, uint64_t clock, uint64_t *accepts);

/*
 * 0 writes templates, bodies and bytes held, pending_cached, pending_dropped, and the bodies that
 * may still be put back. Changes nothing. Refused: 28.
 */
uint32_t netflow_pending_figures(const uint64_t *words, size_t words_len, const uint8_t *bytes,
                                 size_t bytes_len, uint64_t figures[6]);

/*
 * 0 writes where a handed-out body, numbered from 0, begins in the byte area, and its length.
 * Changes nothing. Refused: 28, 27.
 */
uint32_t netflow_pending_place_handed_out(const uint64_t *words, size_t words_len,
                                          const uint8_t *bytes, size_t bytes_len, size_t number,
                                          uint64_t place[2]);

/* ---- the decoded-output budget ------------------------------------------------------------- */

/*
 * A budget is seven words that the caller owns: the limits (field values, payload bytes), the use
 * (field values, payload bytes), and the recorded excess (one of enum netflow_budget_limit, its
 * configured figure, the attempted sum). Any seven words are a budget; a recorded limit that is
 * none is read as none. The use, and a checkpoint to roll back to, are words 2 and 3.
 *
 * Field values and payload bytes are never added together or compared.
 *
 * A preflight is the number that a netflow_preflight function returned, and the cost that it wrote;
 * beside another number than 0 the cost is not looked at.
 */

enum netflow_budget_limit {
    NETFLOW_BUDGET_NONE = 0,
    NETFLOW_BUDGET_FIELD_VALUES = 1,
    NETFLOW_BUDGET_PAYLOAD_BYTES = 2
};

/* Whether these limits can be configured: 0 writes them. Refused, in this order: 9, 10, 11. */
uint32_t netflow_budget_limits(uint64_t max_records, uint64_t max_values,
                               uint64_t max_payload_bytes, uint64_t limits[3]);

/* An unused budget with any two limits, 0 included. Returns 0. */
uint32_t netflow_budget_new(uint64_t budget[7], uint64_t max_values, uint64_t max_payload_bytes);

/* Nothing used and nothing recorded. Returns 0. */
uint32_t netflow_budget_reset(uint64_t budget[7]);

/* Other limits, with nothing used and nothing recorded. Returns 0. */
uint32_t netflow_budget_set_limits(uint64_t budget[7], uint64_t max_values,
                                   uint64_t max_payload_bytes);

/*
 * Takes both counts, or neither. Refused: 23, 24; these write the limit, its configured figure and
 * the attempted sum (2^64 - 1 on overflow), and the first such excess stays recorded.
 */
uint32_t netflow_budget_reserve(uint64_t budget[7], uint64_t values, uint64_t payload_bytes,
                                uint64_t excess[3]);

/* Back to this use, with nothing recorded. Refused, with nothing changed: 26. */
uint32_t netflow_budget_rollback(uint64_t budget[7], uint64_t values, uint64_t payload_bytes);

/* Writes what remains of both counts. Returns 0. */
uint32_t netflow_budget_remaining(const uint64_t budget[7], uint64_t counts[2]);

/* Writes 1 where an excess is recorded, else 0. Returns 0. */
uint32_t netflow_budget_is_exceeded(const uint64_t budget[7], uint64_t answer[1]);

/* Writes the recorded excess, which is recorded no longer, or nothing where there is none. Returns 0. */
uint32_t netflow_budget_take_exceeded(uint64_t budget[7], uint64_t excess[3]);

/* Whether a body can ever fit. Refused: 7, 8. */
uint32_t netflow_budget_validate_pending_full_budget(const uint64_t budget[7], uint32_t number,
                                                     const uint64_t cost[3]);

/* Whether a body fits what remains. Refused: 7, 8, 22. */
uint32_t netflow_budget_validate_pending_remaining(const uint64_t budget[7], uint32_t number,
                                                   const uint64_t cost[3]);

/*
 * Commits the cost of a body where it fits and the decoder's report agrees with the preflight: 0
 * writes the length of the remainder. A success of 0 is a failure; what is reported is field
 * values, payload bytes and the length of the remainder. Refused, with nothing changed: 7, 8, 22.
 */
uint32_t netflow_budget_materialize_pending(uint64_t budget[7], uint32_t number,
                                            const uint64_t cost[3], uint32_t success,
                                            const uint64_t reported[3], uint64_t remainder[1]);

#ifdef __cplusplus
}
#endif

#endif
