/* Document 01's cache cases. A row is a call; the figures are asked for after each. */
#include "checks.h"
#include "netflow_pending.h"

#include <stdio.h>
#include <string.h>

enum call { OPEN, OFFER, DRAIN, PUT_BACK, RESIZE, CLEAR, WOULD_ACCEPT, PLACE, DAMAGE };

static const char *const names[] = {"open",  "offer",        "drain",      "put back", "resize",
                                    "clear", "would_accept", "handed out", "word"};

#define MOST_ARGUMENTS 6
#define NO_VALUE UNTOUCHED
#define NO_FIGURES {UNTOUCHED, UNTOUCHED, UNTOUCHED, UNTOUCHED, UNTOUCHED, UNTOUCHED}

struct row {
    enum call call;
    size_t count;
    /* open, resize: the limits, has_ttl, ttl. offer, would_accept: id, length, clock. drain: id,
       clock. put back: id, count. handed out: number. word: place and content. */
    uint64_t arguments[MOST_ARGUMENTS];
    uint64_t number;
    uint64_t value; /* handed out, dropped, yes or no, a length */
    uint64_t figures[6];
};

static const struct row rows[] = {
    /* templates 2, bodies 2, entry 10, total 16, TTL 100 */
    {OPEN, 6, {2, 2, 10, 16, 1, 100}, 0, NO_VALUE, {0, 0, 0, 0, 0, 0}},
    {OFFER, 3, {300, 6, 0}, 0, NO_VALUE, {1, 1, 6, 1, 0, 0}},
    {OFFER, 3, {301, 8, 1}, 0, NO_VALUE, {2, 2, 14, 2, 0, 0}},
    {OFFER, 3, {300, 4, 2}, 0, NO_VALUE, {2, 2, 12, 3, 1, 0}},
    {OFFER, 3, {302, 4, 3}, 0, NO_VALUE, {2, 2, 8, 4, 2, 0}},
    {OFFER, 3, {300, 1, 4}, 0, NO_VALUE, {2, 3, 9, 5, 2, 0}},
    {OFFER, 3, {300, 1, 5}, NETFLOW_TEMPLATE_FULL, NO_VALUE, {2, 3, 9, 5, 3, 0}},
    {WOULD_ACCEPT, 3, {300, 1, 102}, 0, 1, {2, 3, 9, 5, 3, 0}},
    {OFFER, 3, {300, 1, 102}, 0, NO_VALUE, {2, 3, 6, 6, 4, 0}},
    {DRAIN, 2, {300, 104}, 0, 1, {1, 1, 4, 6, 5, 1}},
    {PLACE, 1, {0}, 0, 1, {1, 1, 4, 6, 5, 1}},
    {PLACE, 1, {1}, NETFLOW_NOT_HANDED_OUT, NO_VALUE, {1, 1, 4, 6, 5, 1}},
    {PUT_BACK, 2, {301, 1}, NETFLOW_NO_CHANCE, NO_VALUE, {1, 1, 4, 6, 5, 1}},
    {PUT_BACK, 2, {300, 2}, NETFLOW_NO_CHANCE, NO_VALUE, {1, 1, 4, 6, 5, 1}},
    {PUT_BACK, 2, {300, 0}, 0, NO_VALUE, {1, 1, 4, 6, 5, 1}},
    {PUT_BACK, 2, {300, 1}, 0, NO_VALUE, {2, 2, 5, 6, 5, 0}},

    /* bodies 1, entry 10, total 10: would_accept is no, and the offer succeeds */
    {OPEN, 6, {1, 1, 10, 10, 0, 0}, 0, NO_VALUE, {0, 0, 0, 0, 0, 0}},
    {OFFER, 3, {300, 6, 0}, 0, NO_VALUE, {1, 1, 6, 1, 0, 0}},
    {WOULD_ACCEPT, 3, {300, 5, 1}, 0, 0, {1, 1, 6, 1, 0, 0}},
    {OFFER, 3, {300, 5, 1}, 0, NO_VALUE, {1, 1, 5, 2, 1, 0}},

    /* the calls that document 01 gives for its program */
    {OPEN, 6, {2, 2, 10, 16, 1, 100}, 0, NO_VALUE, {0, 0, 0, 0, 0, 0}},
    {OFFER, 3, {300, 6, 0}, 0, NO_VALUE, {1, 1, 6, 1, 0, 0}},
    {OFFER, 3, {301, 8, 1}, 0, NO_VALUE, {2, 2, 14, 2, 0, 0}},
    {OFFER, 3, {300, 4, 2}, 0, NO_VALUE, {2, 2, 12, 3, 1, 0}},
    {DRAIN, 2, {301, 3}, 0, 1, {1, 1, 4, 3, 1, 1}},
    {PLACE, 1, {0}, 0, 8, {1, 1, 4, 3, 1, 1}},

    /* evictions come before pruning: the expired body of 300 does not save 301 */
    {OPEN, 6, {2, 2, 10, 10, 1, 100}, 0, NO_VALUE, {0, 0, 0, 0, 0, 0}},
    {OFFER, 3, {301, 4, 50}, 0, NO_VALUE, {1, 1, 4, 1, 0, 0}},
    {OFFER, 3, {300, 6, 1}, 0, NO_VALUE, {2, 2, 10, 2, 0, 0}},
    {OFFER, 3, {300, 5, 101}, 0, NO_VALUE, {1, 1, 5, 3, 2, 0}},

    /* no promotion on 20: 300 is still the least recent, and goes */
    {OPEN, 6, {2, 1, 10, 16, 0, 0}, 0, NO_VALUE, {0, 0, 0, 0, 0, 0}},
    {OFFER, 3, {300, 1, 0}, 0, NO_VALUE, {1, 1, 1, 1, 0, 0}},
    {OFFER, 3, {301, 1, 1}, 0, NO_VALUE, {2, 2, 2, 2, 0, 0}},
    {OFFER, 3, {300, 1, 2}, NETFLOW_TEMPLATE_FULL, NO_VALUE, {2, 2, 2, 2, 1, 0}},
    {OFFER, 3, {302, 1, 3}, 0, NO_VALUE, {2, 2, 2, 3, 2, 0}},
    {DRAIN, 2, {300, 4}, 0, 0, {2, 2, 2, 3, 2, 0}},

    /* an age equal to the TTL is expired */
    {OPEN, 6, {1, 1, 10, 10, 1, 100}, 0, NO_VALUE, {0, 0, 0, 0, 0, 0}},
    {OFFER, 3, {300, 1, 0}, 0, NO_VALUE, {1, 1, 1, 1, 0, 0}},
    {WOULD_ACCEPT, 3, {300, 2, 99}, 0, 0, {1, 1, 1, 1, 0, 0}},
    {WOULD_ACCEPT, 3, {300, 2, 100}, 0, 1, {1, 1, 1, 1, 0, 0}},
    {OFFER, 3, {300, 2, 100}, 0, NO_VALUE, {1, 1, 2, 2, 1, 0}},

    /* 6 leaves the chance of a put-back; clear ends it; a refused resize changes nothing */
    {OPEN, 6, {2, 2, 10, 16, 1, 100}, 0, NO_VALUE, {0, 0, 0, 0, 0, 0}},
    {OFFER, 3, {301, 8, 1}, 0, NO_VALUE, {1, 1, 8, 1, 0, 0}},
    {OFFER, 3, {300, 4, 2}, 0, NO_VALUE, {2, 2, 12, 2, 0, 0}},
    {DRAIN, 2, {301, 3}, 0, 1, {1, 1, 4, 2, 0, 1}},
    {OFFER, 3, {301, 11, 4}, NETFLOW_TOO_LONG, NO_VALUE, {1, 1, 4, 2, 1, 1}},
    {PUT_BACK, 2, {301, 1}, 0, NO_VALUE, {2, 2, 12, 2, 1, 0}},
    {RESIZE, 6, {0, 2, 10, 16, 0, 0}, NETFLOW_NO_TEMPLATES, NO_VALUE, {2, 2, 12, 2, 1, 0}},
    {RESIZE, 6, {2, 0, 10, 16, 0, 0}, NETFLOW_NO_ENTRIES, NO_VALUE, {2, 2, 12, 2, 1, 0}},
    {RESIZE, 6, {2, 2, 0, 16, 0, 0}, NETFLOW_ENTRY_SIZE, NO_VALUE, {2, 2, 12, 2, 1, 0}},
    {RESIZE, 6, {2, 2, 10, 9, 0, 0}, NETFLOW_TOTAL_BYTES, NO_VALUE, {2, 2, 12, 2, 1, 0}},
    {RESIZE, 6, {2, 2, 10, 17, 0, 0}, NETFLOW_AREAS, NO_VALUE, {2, 2, 12, 2, 1, 0}},
    {RESIZE, 6, {2, 2, 6, 16, 0, 0}, 0, 1, {1, 1, 4, 2, 2, 0}},
    {DRAIN, 2, {300, 3}, 0, 1, {0, 0, 0, 2, 2, 1}},
    {CLEAR, 0, {0}, 0, NO_VALUE, {0, 0, 0, 2, 2, 0}},
    {PUT_BACK, 2, {300, 1}, NETFLOW_NO_CHANCE, NO_VALUE, {0, 0, 0, 2, 2, 0}},
    {DRAIN, 2, {300, 3}, 0, 0, {0, 0, 0, 2, 2, 0}},

    /* an opening that is refused changes nothing */
    {OPEN, 6, {0, 0, 0, 0, 0, 0}, NETFLOW_NO_TEMPLATES, NO_VALUE, {0, 0, 0, 2, 2, 0}},
    {OPEN, 6, {1025, 1, 1, 1, 0, 0}, NETFLOW_AREAS, NO_VALUE, {0, 0, 0, 2, 2, 0}},

    /* a stored total unlike the sum */
    {DAMAGE, 2, {8, 1}, 0, NO_VALUE, NO_FIGURES},
    {OFFER, 3, {300, 1, 0}, NETFLOW_DAMAGED, NO_VALUE, NO_FIGURES},
    {DRAIN, 2, {300, 0}, NETFLOW_DAMAGED, NO_VALUE, NO_FIGURES},
    {PUT_BACK, 2, {300, 0}, NETFLOW_DAMAGED, NO_VALUE, NO_FIGURES},
    {RESIZE, 6, {0, 0, 0, 0, 0, 0}, NETFLOW_DAMAGED, NO_VALUE, NO_FIGURES},
    {CLEAR, 0, {0}, NETFLOW_DAMAGED, NO_VALUE, NO_FIGURES},
    {WOULD_ACCEPT, 3, {300, 1, 0}, NETFLOW_DAMAGED, NO_VALUE, NO_FIGURES},
    {PLACE, 1, {0}, NETFLOW_DAMAGED, NO_VALUE, NO_FIGURES},
    {OPEN, 6, {1, 1, 1, 1, 0, 0}, 0, NO_VALUE, {0, 0, 0, 0, 0, 0}},
};

#define WORDS NETFLOW_PENDING_WORDS(2, 2)
#define BYTES NETFLOW_PENDING_BYTES(16)

static uint64_t words[WORDS];
static uint8_t bytes[BYTES];

/* Byte i of a body is i. */
static const uint8_t body[] = {0, 1, 2, 3, 4, 5, 6, 7, 8, 9, 10};

/* A handed-out body's length. Each of the cases hands out the bytes of `body`. */
static uint32_t read_length(size_t number, uint64_t *length)
{
    uint64_t place[2] = {UNTOUCHED, UNTOUCHED};
    uint32_t refused =
        netflow_pending_place_handed_out(words, WORDS, bytes, BYTES, number, place);
    *length = place[1];
    if (refused == 0 && memcmp(bytes + place[0], body, place[1]) != 0)
        *length = UINT64_MAX;
    return refused;
}

static uint32_t make(const struct row *row, uint64_t *value)
{
    const uint64_t *a = row->arguments;
    switch (row->call) {
    case OPEN:
        return netflow_pending_open(words, WORDS, bytes, BYTES, a[0], a[1], a[2], a[3],
                                    (uint32_t)a[4], a[5]);
    case OFFER:
        return netflow_pending_cache(words, WORDS, bytes, BYTES, (uint16_t)a[0], body, a[1], a[2]);
    case DRAIN:
        return netflow_pending_drain(words, WORDS, bytes, BYTES, (uint16_t)a[0], a[1], value);
    case PUT_BACK:
        return netflow_pending_restore_replay_suffix(words, WORDS, bytes, BYTES, (uint16_t)a[0],
                                                     a[1]);
    case RESIZE:
        return netflow_pending_resize(words, WORDS, bytes, BYTES, a[0], a[1], a[2], a[3],
                                      (uint32_t)a[4], a[5], value);
    case CLEAR:
        return netflow_pending_clear(words, WORDS, bytes, BYTES);
    case WOULD_ACCEPT:
        return netflow_pending_would_accept(words, WORDS, bytes, BYTES, (uint16_t)a[0], a[1], a[2],
                                            value);
    case PLACE:
        return read_length(a[0], value);
    case DAMAGE:
        words[a[0]] = a[1];
        return 0;
    }
    return UINT32_MAX;
}

static void run_row(const struct row *row)
{
    char name[128];
    size_t end = (size_t)snprintf(name, sizeof name, "%s", names[row->call]);
    for (size_t i = 0; i < row->count; i++)
        end += (size_t)snprintf(name + end, sizeof name - end, " %u", (unsigned)row->arguments[i]);

    /* number and value of the call, number and values of the figures */
    uint64_t came[9] = {0, UNTOUCHED, 0};
    uint64_t expected[9] = {row->number, row->value, 0};
    for (size_t i = 3; i < 9; i++)
        came[i] = UNTOUCHED;
    came[0] = make(row, &came[1]);
    came[2] = netflow_pending_figures(words, WORDS, bytes, BYTES, came + 3);
    if (row->figures[0] == UNTOUCHED)
        expected[2] = NETFLOW_DAMAGED;
    memcpy(expected + 3, row->figures, sizeof row->figures);
    check(name, came, expected, 9);
}

/* Limits for areas of these lengths. */
static void check_limits(const char *name, size_t words_len, size_t bytes_len, size_t templates,
                         size_t bodies, size_t entry, size_t total, uint64_t expected)
{
    const uint64_t number = netflow_pending_validate_config(words_len, bytes_len, templates,
                                                            bodies, entry, total);
    check(name, &number, &expected, 1);
}

void run_cache_cases(void)
{
    check_limits("limits 2 2 10 16", WORDS, BYTES, 2, 2, 10, 16, 0);
    check_limits("limits 2 2 10 16, a word less", WORDS - 1, BYTES, 2, 2, 10, 16, NETFLOW_AREAS);
    check_limits("limits 2 2 10 16, a byte less", WORDS, BYTES - 1, 2, 2, 10, 16, NETFLOW_AREAS);
    check_limits("limits 0 0 0 0", WORDS, BYTES, 0, 0, 0, 0, NETFLOW_NO_TEMPLATES);
    check_limits("limits 1 0 0 0", WORDS, BYTES, 1, 0, 0, 0, NETFLOW_NO_ENTRIES);
    check_limits("limits 1 1 65532 0", WORDS, BYTES, 1, 1, 65532, 0, NETFLOW_ENTRY_SIZE);
    check_limits("limits 1 1 5 4", WORDS, BYTES, 1, 1, 5, 4, NETFLOW_TOTAL_BYTES);
    check_limits("the highest limits", NETFLOW_PENDING_WORDS(1024, 256),
                 NETFLOW_PENDING_MAX_TOTAL_BYTES, NETFLOW_PENDING_MAX_TEMPLATES, 256,
                 NETFLOW_PENDING_MAX_ENTRY_SIZE, NETFLOW_PENDING_MAX_TOTAL_BYTES, 0);
    check_limits("a body more", SIZE_MAX, SIZE_MAX, NETFLOW_PENDING_MAX_TEMPLATES, 257,
                 NETFLOW_PENDING_MAX_ENTRY_SIZE, NETFLOW_PENDING_MAX_TOTAL_BYTES, NETFLOW_AREAS);
    for (size_t i = 0; i < sizeof rows / sizeof *rows; i++)
        run_row(&rows[i]);
}
