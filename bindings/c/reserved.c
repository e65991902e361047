/* Counts what the library asks of its heap: where jobs and slots are reserved, nothing, whatever arrives, between begin and end,
 * too, and whatever the slots carry, also in later lives. mg_memory says beforehand how much that is. It has the three heap
 * functions in itself. */
#include "maulgreen.h"
#include <stdio.h>
#include <stdlib.h>

static unsigned long asked;
#define malloc(size) (asked++, malloc(size))
#define realloc(at, size) (asked++, realloc(at, size))
#include "heap.c"

static void check(int holds, const char *what) {
    if (!holds) { printf("wrong: %s\n", what); exit(1); }
}

/* Lives that each use up what was reserved once: a renewal reserves it again. */
static void show_lives(void) {
    enum { LIVES = 3, SLOTS = 400, JOBS = SLOTS / 4 };
    struct mg_plan plan = {8, 4, 3, 16, 2, 0};
    struct mg_task task = {4, 0, 0, 0, 0};
    struct mg_op ops[2] = {{MG_READ, 1, {{0}}}, {MG_READ, 2, {{0}}}};
    mg_die die = {0};
    check(mg_new(&die, &plan, &task, 1) == MG_OK && mg_reserve_jobs(&die, JOBS, 2 * JOBS) == MG_OK && mg_reserve(&die, SLOTS) == MG_OK,
          "a die for many lives");
    asked = 0;
    for (uint32_t life = 0; life < LIVES; life++) {
        for (uint32_t s = 0; s < SLOTS; s++) {
            struct mg_call call;
            struct mg_reply reply;
            uint32_t number;
            if (s % 4 == 0) check(mg_submit(&die, 1, 0, s, s + 9, ops, 2, &number, NULL) == MG_OK, "a job that is reserved");
            check(mg_begin(&die, 1, &call) == MG_OK && mg_end(&die, 1, &call.name, &reply, NULL, 0) == MG_OK, "a slot that is reserved");
        }
        check(mg_renew(&die, NULL) == MG_OK && mg_now(&die) == 0, "the next life");
    }
    check(asked == 0, "no life asks for what was reserved before the first one");
    mg_free(&die);
}

int main(void) {
    enum { SLOTS = 4000, JOBS = 3 * SLOTS, OPERATIONS = 4 * SLOTS };
    struct mg_plan plan = {8, 4, 3, 16, 2, 0};
    struct mg_task task = {4, 0, 0, 0, 0};
    unsigned long acts[7] = {0}, waived_ones = 0, jobs = 0;
    struct mg_bytes bytes;
    uint32_t seed = 1;
    mg_die die = {0};
    show_lives();
    check(mg_new(&die, &plan, &task, 1) == MG_OK, "new");
    check(mg_memory(&plan, &task, 1, SLOTS, JOBS, OPERATIONS, &bytes) == MG_OK, "how much memory");
    check(mg_reserve_jobs(&die, JOBS, OPERATIONS) == MG_OK && mg_reserve(&die, SLOTS) == MG_OK, "jobs first, and then slots");
    asked = 0;
    for (uint32_t s = 0; s < SLOTS; s++) {
        struct mg_call call;
        struct mg_reply reply;
        struct mg_waived waived[16];
        struct mg_why why;
        uint32_t number, now = mg_now(&die), page = (seed = seed * 1664525u + 1013904223u) >> 28;
        struct mg_op ops[2] = {{MG_WRITE, page, {{(uint8_t)s, 1}}}, {MG_READ, page, {{0}}}};
        if (s % 5 == 0) {
            jobs += mg_collect(&die, 1, 0, now, now + 40, &number, &why) == MG_OK;
            jobs += mg_submit(&die, 1, 0, now, now + 9, ops, 2, &number, &why) == MG_OK;
        }
        check(mg_begin(&die, s % 3, &call) == MG_OK, "begin");
        jobs += mg_submit(&die, 1, 0, call.slot + 1, call.slot + 9, ops + 1, 1, &number, &why) == MG_OK;
        check(mg_end(&die, 1, &call.name, &reply, waived, 16) == MG_OK, "end");
        acts[reply.act]++;
        waived_ones += reply.waived;
    }
    check(acts[MG_DID_READ] && acts[MG_DID_WRITE] && acts[MG_COPY_PROGRAM] && acts[MG_ERASE] && waived_ones,
          "reads, writes, copies, erases and waivers");
    check(jobs > SLOTS, "jobs and collections");
    mg_free(&die);
    printf("of %d slots and %lu jobs that were reserved, in at most %lu bytes, %lu calls of the heap\n", SLOTS, jobs, (unsigned long)bytes.reserved,
           asked);
    return asked != 0;
}
