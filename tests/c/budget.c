/* Document 01's budget case, and a case for each number that a budget answers. */
#include "checks.h"
#include "netflow_pending.h"

#include <string.h>

static const uint64_t untouched[3] = {UNTOUCHED, UNTOUCHED, UNTOUCHED};

/* The number, three values, and the budget after the call. */
static void check_budget(const char *name, uint32_t number, const uint64_t values[3],
                         const uint64_t budget[7], const uint64_t expected[11])
{
    uint64_t came[11];
    came[0] = number;
    memcpy(came + 1, values, 3 * sizeof *values);
    memcpy(came + 4, budget, 7 * sizeof *budget);
    check(name, came, expected, 11);
}

/* Limits 10 and 100, 8 values used. */
static void used(uint64_t budget[7])
{
    uint64_t excess[3];
    netflow_budget_new(budget, 10, 100);
    netflow_budget_reserve(budget, 8, 0, excess);
}

static void reservations(void)
{
    uint64_t budget[7], values[3];

    used(budget);
    memcpy(values, untouched, sizeof values);
    check_budget("reserve 3 and 500 with 8 of 10 values used",
                 netflow_budget_reserve(budget, 3, 500, values), values, budget,
                 (uint64_t[]){NETFLOW_VALUES_EXCEEDED, 1, 10, 11, 10, 100, 8, 0, 1, 10, 11});
    memcpy(values, untouched, sizeof values);
    check_budget("reserve 2 and 101: the first excess stays recorded",
                 netflow_budget_reserve(budget, 2, 101, values), values, budget,
                 (uint64_t[]){NETFLOW_PAYLOAD_EXCEEDED, 2, 100, 101, 10, 100, 8, 0, 1, 10, 11});
    memcpy(values, untouched, sizeof values);
    check_budget("take_exceeded", netflow_budget_take_exceeded(budget, values), values, budget,
                 (uint64_t[]){NETFLOW_DONE, 1, 10, 11, 10, 100, 8, 0, 0, 0, 0});
    memcpy(values, untouched, sizeof values);
    check_budget("reserve 2 and 100", netflow_budget_reserve(budget, 2, 100, values), values, budget,
                 (uint64_t[]){NETFLOW_DONE, UNTOUCHED, UNTOUCHED, UNTOUCHED, 10, 100, 10, 100, 0, 0,
                              0});
    check_budget("rollback to 11 values", netflow_budget_rollback(budget, 11, 0), values, budget,
                 (uint64_t[]){NETFLOW_ABOVE_USE, UNTOUCHED, UNTOUCHED, UNTOUCHED, 10, 100, 10, 100,
                              0, 0, 0});
    check_budget("rollback to 8 values", netflow_budget_rollback(budget, 8, 0), values, budget,
                 (uint64_t[]){NETFLOW_DONE, UNTOUCHED, UNTOUCHED, UNTOUCHED, 10, 100, 8, 0, 0, 0, 0});
    check_budget("remaining", netflow_budget_remaining(budget, values), values, budget,
                 (uint64_t[]){NETFLOW_DONE, 2, 100, UNTOUCHED, 10, 100, 8, 0, 0, 0, 0});
    check_budget("is_exceeded", netflow_budget_is_exceeded(budget, values), values, budget,
                 (uint64_t[]){NETFLOW_DONE, 0, 100, UNTOUCHED, 10, 100, 8, 0, 0, 0, 0});
    check_budget("set_limits", netflow_budget_set_limits(budget, 0, 7), values, budget,
                 (uint64_t[]){NETFLOW_DONE, 0, 100, UNTOUCHED, 0, 7, 0, 0, 0, 0, 0});
    check_budget("reset", netflow_budget_reset(budget), values, budget,
                 (uint64_t[]){NETFLOW_DONE, 0, 100, UNTOUCHED, 0, 7, 0, 0, 0, 0, 0});
}

static void limits(void)
{
    uint64_t figures[11] = {0}, values[3];
    const struct {
        const char *name;
        uint64_t given[3];
        uint64_t number;
    } rows[] = {
        {"limits 0 0 0", {0, 0, 0}, NETFLOW_ZERO_RECORDS},
        {"limits 1 0 0", {1, 0, 0}, NETFLOW_ZERO_FIELD_VALUES},
        {"limits 1 1 0", {1, 1, 0}, NETFLOW_ZERO_PAYLOAD_BYTES},
        {"limits 1 2 3", {1, 2, 3}, NETFLOW_DONE},
    };
    for (size_t i = 0; i < sizeof rows / sizeof *rows; i++) {
        memcpy(values, untouched, sizeof values);
        figures[0] = netflow_budget_limits(rows[i].given[0], rows[i].given[1], rows[i].given[2],
                                           values);
        memcpy(figures + 1, values, sizeof values);
        const uint64_t *told = rows[i].number == 0 ? rows[i].given : untouched;
        check(rows[i].name, figures, (uint64_t[]){rows[i].number, told[0], told[1], told[2]}, 4);
    }
}

static void queued_bodies(void)
{
    const uint64_t fits[3] = {2, 5, 1}, large[3] = {3, 5, 1}, never[3] = {11, 5, 1};
    const uint64_t other[3] = {2, 5, 0};
    uint64_t budget[7], values[3];

    used(budget);
    check("full budget, a cost of 11 values",
          (uint64_t[]){netflow_budget_validate_pending_full_budget(budget, 0, never)},
          (uint64_t[]){NETFLOW_NEVER_FITS}, 1);
    check("full budget, a refused preflight",
          (uint64_t[]){netflow_budget_validate_pending_full_budget(budget, NETFLOW_INVALID, fits)},
          (uint64_t[]){NETFLOW_INVALID}, 1);
    check("remaining, a cost of 3 values",
          (uint64_t[]){netflow_budget_validate_pending_remaining(budget, 0, large)},
          (uint64_t[]){NETFLOW_TEMPORARILY_DOES_NOT_FIT}, 1);
    check("remaining, a cost of 11 values",
          (uint64_t[]){netflow_budget_validate_pending_remaining(budget, 0, never)},
          (uint64_t[]){NETFLOW_NEVER_FITS}, 1);
    memcpy(values, untouched, sizeof values);
    check_budget("materialize, a report with another remainder",
                 netflow_budget_materialize_pending(budget, 0, fits, 1, other, values), values,
                 budget,
                 (uint64_t[]){NETFLOW_INVALID, UNTOUCHED, UNTOUCHED, UNTOUCHED, 10, 100, 8, 0, 0, 0,
                              0});
    check_budget("materialize, a decoder that fails",
                 netflow_budget_materialize_pending(budget, 0, fits, 0, fits, values), values,
                 budget,
                 (uint64_t[]){NETFLOW_INVALID, UNTOUCHED, UNTOUCHED, UNTOUCHED, 10, 100, 8, 0, 0, 0,
                              0});
    check_budget("materialize, 2 values and 5 bytes",
                 netflow_budget_materialize_pending(budget, 0, fits, 1, fits, values), values,
                 budget,
                 (uint64_t[]){NETFLOW_DONE, 1, UNTOUCHED, UNTOUCHED, 10, 100, 10, 5, 0, 0, 0});
}

void run_budget_cases(void)
{
    reservations();
    limits();
    queued_bodies();
}
