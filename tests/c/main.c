/* Document 01's cases, by the functions that the archive exports. Exits with 1 on a difference. */
#include "checks.h"

#include <stdio.h>

int main(void)
{
    run_framing_cases();
    run_cache_cases();
    run_budget_cases();
    printf("%u cases, %u differ\n", checked, different);
    return different != 0;
}
