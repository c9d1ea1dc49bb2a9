/* Case 1 of the rules, and case 9's window over its plan, from C: prints the rows of case1.out. */
#include <stdio.h>

#include "gelmush.h"

static uint32_t plan[GELMUSH_PLAN_WORDS];

static void slots(const uint32_t *record, size_t words) {
    for (; words >= GELMUSH_RECORD_WORDS; words -= GELMUSH_RECORD_WORDS, record += GELMUSH_RECORD_WORDS)
        printf("slot,%u,%u,%u,%u,\n", record[0], record[1], record[2], record[3]);
}

static void offer(gelmush_table *table, uint32_t stream, uint32_t kind, uint32_t period, uint32_t min, uint32_t max, uint32_t life) {
    printf("offer,%u,,,,%u\n", stream, gelmush_offer(table, stream, kind, period, min, max, life));
}

static void window(size_t count, uint32_t from, uint32_t until) {
    uint32_t answer = 0;
    gelmush_place part = gelmush_window(plan, GELMUSH_PLAN_WORDS, count, from, until, &answer);
    printf("window,%u,%u,%u\n", from, until, answer);
    slots(plan + part.first, part.words);
}

int main(void) {
    gelmush_table table = {{0}};
    printf("open,,,,,%u\n", gelmush_open(&table, 1, 0));
    offer(&table, 5, 1, 2, 100, 300, 4);
    offer(&table, 7, 2, 2, 600, 1000, 4);
    offer(&table, 9, 3, 1, 300, 0, 1);
    gelmush_sent sent = gelmush_beacon(&table, plan, GELMUSH_PLAN_WORDS);
    printf("beacon,,,,,%u\n", sent.answer);
    slots(plan, GELMUSH_RECORD_WORDS * sent.count);

    window(sent.count, 100, 512);
    window(sent.count, 512, 512);
    window(sent.count, 513, 512);

    gelmush_found found = gelmush_enquire(&table, 7);
    printf("enquire,7,%u: owed %u, given %u, left %u\n", found.answer, found.entry.owed, found.entry.given, found.entry.left);
    printf("withdraw,9,%u\n", gelmush_withdraw(&table, 9));
    printf("open,,,,,%u\n", gelmush_open(&table, 0, 0));
    printf("withdraw,5,%u\n", gelmush_withdraw(&table, 5));
    printf("beacon,,,,,%u\n", gelmush_beacon(&table, plan, GELMUSH_PLAN_WORDS - 1).answer);
    return 0;
}
