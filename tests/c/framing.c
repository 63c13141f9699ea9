/* Document 01's framing cases, and the numbers beside 7. */
#include "checks.h"
#include "netflow_pending.h"

typedef uint32_t preflight(const uint8_t *, size_t, const uint16_t *, size_t, size_t, uint64_t *);

struct framing_case {
    const char *name;
    preflight *function;
    const uint8_t *body;
    size_t body_len;
    const uint16_t *widths;
    size_t widths_len;
    size_t max_records;
    uint64_t expected[4]; /* number, field values, payload bytes, remainder */
};

static const uint8_t zeros[NETFLOW_PREFLIGHT_MAX_BODY + 1];
static const uint16_t fixed[] = {4, 4};
static const uint16_t variable[] = {NETFLOW_VARIABLE_LENGTH, 2};
static const uint16_t many[NETFLOW_PREFLIGHT_MAX_WIDTHS + 1];

static const uint8_t one_record[] = {0x03, 0x61, 0x62, 0x63, 0x00, 0x50};
static const uint8_t two_zeros_after[] = {0x03, 0x61, 0x62, 0x63, 0x00, 0x50, 0x00, 0x00};
static const uint8_t three_zeros_after[] = {0x03, 0x61, 0x62, 0x63, 0x00, 0x50, 0x00, 0x00, 0x00};
static const uint8_t cut_record_after[] = {0x03, 0x61, 0x62, 0x63, 0x00, 0x50, 0xFF, 0xFF, 0xFF};
static const uint8_t long_prefix[] = {0xFF, 0x00, 0x01, 0x61, 0x00, 0x50};

#define V9 netflow_preflight_v9_fixed
#define IPFIX netflow_preflight_ipfix_fixed
#define VARIABLE netflow_preflight_ipfix_variable
#define LIMIT SIZE_MAX
#define REFUSED(number) {number, UNTOUCHED, UNTOUCHED, UNTOUCHED}

static const struct framing_case cases[] = {
    {"v9 4 4, 19 bytes", V9, zeros, 19, fixed, 2, LIMIT, {0, 4, 16, 3}},
    {"v9 4 4, 20 bytes", V9, zeros, 20, fixed, 2, LIMIT, REFUSED(NETFLOW_INVALID)},
    {"IPFIX 4 4, 20 bytes", IPFIX, zeros, 20, fixed, 2, LIMIT, {0, 4, 16, 4}},
    {"v9 4 4, 16 bytes, record limit 1", V9, zeros, 16, fixed, 2, 1, REFUSED(NETFLOW_INVALID)},
    {"IPFIX 4 4, 16 bytes, record limit 1", IPFIX, zeros, 16, fixed, 2, 1,
     REFUSED(NETFLOW_INVALID)},
    {"IPFIX 65535 2, 03 61 62 63 00 50", VARIABLE, one_record, 6, variable, 2, LIMIT,
     {0, 2, 5, 0}},
    {"00 00 after", VARIABLE, two_zeros_after, 8, variable, 2, LIMIT, {0, 2, 5, 2}},
    {"00 00 00 after", VARIABLE, three_zeros_after, 9, variable, 2, LIMIT, {0, 4, 7, 0}},
    {"FF FF FF after", VARIABLE, cut_record_after, 9, variable, 2, LIMIT,
     REFUSED(NETFLOW_INVALID)},
    {"IPFIX 65535 2, FF 00 01 61 00 50", VARIABLE, long_prefix, 6, variable, 2, LIMIT,
     {0, 2, 3, 0}},
    {"no bytes", V9, zeros, 0, fixed, 2, LIMIT, REFUSED(NETFLOW_INVALID)},
    {"no widths", V9, zeros, 8, fixed, 0, LIMIT, REFUSED(NETFLOW_INVALID)},
    {"record limit 0", V9, zeros, 8, fixed, 2, 0, REFUSED(NETFLOW_ZERO_RECORDS)},
    {"65,531 bytes", IPFIX, zeros, NETFLOW_PREFLIGHT_MAX_BODY, fixed, 2, LIMIT,
     {0, 16382, 65528, 3}},
    {"65,532 bytes", IPFIX, zeros, NETFLOW_PREFLIGHT_MAX_BODY + 1, fixed, 2, LIMIT,
     REFUSED(NETFLOW_OVERSIZED)},
    {"65,535 widths of 0", IPFIX, zeros, 8, many, NETFLOW_PREFLIGHT_MAX_WIDTHS, LIMIT,
     REFUSED(NETFLOW_INVALID)},
    {"65,536 widths of 0", IPFIX, zeros, 8, many, NETFLOW_PREFLIGHT_MAX_WIDTHS + 1, LIMIT,
     REFUSED(NETFLOW_OVERSIZED)},
};

void run_framing_cases(void)
{
    for (size_t i = 0; i < sizeof cases / sizeof *cases; i++) {
        const struct framing_case *c = &cases[i];
        uint64_t cost[3] = {UNTOUCHED, UNTOUCHED, UNTOUCHED};
        uint32_t number =
            c->function(c->body, c->body_len, c->widths, c->widths_len, c->max_records, cost);
        const uint64_t came[4] = {number, cost[0], cost[1], cost[2]};
        check(c->name, came, c->expected, 4);
    }
}
