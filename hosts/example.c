/* A host in C: two benches take turns and stamp readings, a damaged table is refused, and a
 * schedule is run. */
#include "rybostan.h"

#include <stdio.h>
#include <string.h>

static struct rybostan_ran run(const char *schedule, uint8_t *listing, size_t room)
{
    return rybostan_run((const uint8_t *)schedule, strlen(schedule), 10, listing, room);
}

/* Marks a reading, and keeps its stamp. */
static void mark(uint32_t *table, uint32_t bench, uint32_t stamp[RYBOSTAN_MOST])
{
    printf("mark %u: %u\n", bench, rybostan_mark(table, bench));
    printf("counts %u: %u,", bench, rybostan_counts(table, bench, stamp));
    for (uint32_t q = 0; q < table[0]; q++)
        printf(" %u", stamp[q]);
    printf("\n");
}

/* Could the reading with the first stamp have influenced the one with the second? */
static const char *compared(const uint32_t *one, const uint32_t *other)
{
    switch (rybostan_compare(one, other)) {
    case RYBOSTAN_BEFORE:
        return "before";
    case RYBOSTAN_AFTER:
        return "after";
    case RYBOSTAN_SAME:
        return "same";
    default:
        return "neither";
    }
}

int main(void)
{
    uint32_t table[RYBOSTAN_WORDS] = {0};
    printf("fresh: %u\n", rybostan_fresh(table, 2, 4, 0));
    printf("ask 0: %u\n", rybostan_ask(table, 0));
    printf("enter 0: %u\n", rybostan_enter(table, 0));
    printf("carry 0 1: %u\n", rybostan_carry(table, 0, 1));
    printf("carry 1 0: %u\n", rybostan_carry(table, 1, 0));
    printf("enter 0: %u\n", rybostan_enter(table, 0));

    uint32_t early[RYBOSTAN_MOST], held[RYBOSTAN_MOST], late[RYBOSTAN_MOST];
    mark(table, 1, early);
    mark(table, 0, held);
    printf("early, held: %s\n", compared(early, held));
    printf("leave 0: %u\n", rybostan_leave(table, 0));
    printf("carry 0 1: %u\n", rybostan_carry(table, 0, 1));
    mark(table, 1, late);
    printf("held, late: %s\n", compared(held, late));
    printf("late, held: %s\n", compared(late, held));
    printf("own count of 1: %u\n", table[RYBOSTAN_COUNT(1, 1)]);
    printf("well formed: %d\n", rybostan_well_formed(table));

    table[0] = 9;
    printf("nine benches: %d\n", rybostan_well_formed(table));
    printf("mark 0: %u\n", rybostan_mark(table, 0));
    printf("counts 0: %u\n", rybostan_counts(table, 0, late));

    uint8_t listing[128];
    struct rybostan_ran good = run("table\t1\t1\t0\nask\t0\nenter\t0\n", listing, sizeof listing);
    printf("run: %u %zu %zu\n", good.answer, good.line, good.bytes);
    fwrite(listing, 1, good.bytes, stdout);
    struct rybostan_ran bad = run("table\t1\t1\t0\nask\n", listing, sizeof listing);
    printf("run: %u %zu %zu\n", bad.answer, bad.line, bad.bytes);
    return 0;
}
