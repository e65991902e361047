/* Questions of four threads beside each other, while two dies are driven by two threads: one was made on another thread than
 * the one that uses it. For helgrind, which finds what two threads write. */
#define _POSIX_C_SOURCE 200809L
#include "maulgreen.h"
#include <pthread.h>
#include <stdio.h>
#include <stdlib.h>
#include <string.h>

enum { ASKERS = 4, ROUNDS = 200 };

static void check(int holds, const char *what) {
    if (!holds) { printf("wrong: %s\n", what); exit(1); }
}

static mg_die made(void) {
    struct mg_plan plan = {8, 4, 3, 16, 2, 0};
    struct mg_task task = {4, 0, 0, 0, 0};
    mg_die die = {0};
    check(mg_new(&die, &plan, &task, 1) == MG_OK, "new");
    return die;
}

static void *drive(void *at) {
    mg_die *die = at;
    for (uint32_t r = 0; r < ROUNDS; r++) {
        uint32_t now = mg_now(die);
        struct mg_op ops[2] = {{MG_WRITE, r % 16, {{(uint8_t)r}}}, {MG_READ, r % 16, {{0}}}};
        mg_collect(die, 1, 0, now, now + 40, NULL, NULL);
        check(mg_submit(die, 1, 0, now, now + 8, ops, 2, NULL, NULL) == MG_OK, "submit");
        struct mg_reply reply;
        do {
            struct mg_call call;
            struct mg_waived waived[1];
            check(mg_begin(die, 9, &call) == MG_OK && mg_end(die, 1, &call.name, &reply, waived, 1) == MG_OK, "a slot");
        } while (reply.act != MG_IDLE);
    }
    return NULL;
}

static void *ask(void *at) {
    const mg_die *die = at;
    static const struct mg_worst_job none;
    for (uint32_t r = 0; r < ROUNDS; r++) {
        struct mg_job_head head;
        struct mg_job_outcome outcome;
        struct mg_worst_job worst = none;
        struct mg_cert cert;
        struct mg_name read[1];
        struct mg_row rows[8];
        uint32_t jobs[8], total;
        struct mg_cell at;
        struct mg_entry entries[4];
        struct mg_waived waived[1];
        check(mg_place(die, r % 16, &at) == MG_OK && mg_entries(die, r, entries, 4) == MG_OK && mg_entry_waived(die, r, waived, 1) == MG_OK, "places and entries");
        check(mg_now(die) > ROUNDS && mg_len(die) > ROUNDS && mg_records(die) > 0, "the log");
        check(mg_job(die, r, &head) == MG_OK && mg_outcome(die, r, &outcome, read, 1) == MG_OK, "a job");
        check(mg_worst(die, &worst) == MG_OK && mg_certificate(die, &cert, jobs, 8) == MG_OK && cert.job == worst.job, "the worst");
        if (r % 50 == 0) check(mg_rows(die, rows, 8, &total) == MG_OK && total > ROUNDS, "the rows");
    }
    return NULL;
}

int main(void) {
    pthread_t threads[ASKERS];
    mg_die dies[2] = {made(), made()};
    for (int i = 0; i < 2; i++) check(!pthread_create(&threads[i], NULL, drive, &dies[i]), "a thread");
    for (int i = 0; i < 2; i++) pthread_join(threads[i], NULL);
    for (int i = 0; i < ASKERS; i++) check(!pthread_create(&threads[i], NULL, ask, &dies[0]), "a thread");
    for (int i = 0; i < ASKERS; i++) pthread_join(threads[i], NULL);
    for (int i = 0; i < 2; i++) mg_free(&dies[i]);
    puts("questions beside each other");
    return 0;
}
