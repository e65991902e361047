/* How long a slot takes through C, with no device behind it: processor time, the best of ten runs. */
#include "maulgreen.h"
#include <inttypes.h>
#include <stdio.h>
#include <stdlib.h>
#include <string.h>
#include <time.h>

enum { RUNS = 10, ROUNDS = 30000 };

static double seconds(void) {
    struct timespec t;
    clock_gettime(CLOCK_PROCESS_CPUTIME_ID, &t);
    return (double)t.tv_sec + (double)t.tv_nsec * 1e-9;
}

static void must(int holds) { if (!holds) { puts("wrong"); exit(1); } }

/* In each round a collection and a job of two writes and a read, and slots until one is idle. Answers the slots. */
static uint32_t run(mg_die *die, uint32_t *seed) {
    struct mg_why why;
    uint32_t job, slots = 0;
    for (uint32_t r = 0; r < ROUNDS; r++) {
        uint32_t now = mg_now(die), page = (*seed = *seed * 1664525u + 1013904223u) >> 22;
        struct mg_op ops[3] = {{MG_WRITE, page, {{0}}}, {MG_WRITE, (page + 1) % 1024, {{1}}}, {MG_READ, page, {{0}}}};
        memcpy(ops[0].name.bytes, &r, 4);
        must(mg_collect(die, 1, 0, now, now + 90, &job, &why) == MG_OK);
        must(mg_submit(die, 1, 0, now, now + 8, ops, 3, &job, &why) == MG_OK);
        struct mg_reply reply;
        do {
            struct mg_call call;
            struct mg_waived waived[16];
            must(mg_begin(die, 9, &call) == MG_OK);
            must(mg_end(die, 1, &call.name, &reply, waived, 16) == MG_OK);
            slots++;
        } while (reply.act != MG_IDLE);
    }
    return slots;
}

int main(void) {
    struct mg_plan plan = {64, 32, 3, 1024, 8, 0};
    struct mg_task task = {32, 0, 0, 0, 0};
    mg_die die = {0};
    must(mg_new(&die, &plan, &task, 1) == MG_OK);
    double best = 1e9;
    uint32_t seed = 1;
    for (int i = 0; i < RUNS; i++) {
        struct mg_why why;
        double begun = seconds();
        uint32_t slots = run(&die, &seed);
        double took = (seconds() - begun) / slots * 1e9;
        if (took < best) best = took;
        must(mg_renew(&die, &why) == MG_OK);
    }
    printf("%.0f ns a slot, with its share of arrivals\n", best);
    mg_free(&die);
    return 0;
}
