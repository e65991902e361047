/* Drives a chip of 4 KiB pages, which is simulated here. The die deals with names of sixteen bytes; this driver moves the
 * payloads that they name. Read `drive` first: it is what a driver has to do. */
#include "maulgreen.h"
#include <inttypes.h>
#include <stdio.h>
#include <stdlib.h>
#include <string.h>

enum { BLOCKS = 8, PAGES = 4, ERASE_SLOTS = 3, LOGICAL = 16, PAYLOAD = 4096, BUFFERS = 32 };

static void check(int holds, const char *what) {
    if (!holds) { printf("wrong: %s\n", what); exit(1); }
}

/* ---- The chip ---------------------------------------------------------------------------------------------------- */

static uint8_t cells[BLOCKS][PAGES][PAYLOAD];
static uint32_t programs_left = UINT32_MAX; /* how many more programs go well: the next one fails */

/* ---- Names and buffers ------------------------------------------------------------------------------------------- */

/* A payload's name: two runs of FNV-1a, which does for an example. A driver takes a digest that no two of its payloads
 * share, or the number of a buffer, which it then keeps in the page's spare area. */
static struct mg_name name_of(const uint8_t *payload) {
    uint64_t a = 14695981039346656037u, b = 0x9E3779B97F4A7C15u;
    for (size_t i = 0; i < PAYLOAD; i++) {
        a = (a ^ payload[i]) * 1099511628211u;
        b = (b ^ payload[i]) * 1099511628211u + i;
    }
    struct mg_name name;
    memcpy(name.bytes, &a, 8);
    memcpy(name.bytes + 8, &b, 8);
    return name;
}

/* Payloads on their way to a cell: what jobs write, from mg_submit to the program; and what copies have read, until the
 * same collection programs it. */
static struct buffer { int used; struct mg_name name; uint8_t payload[PAYLOAD]; } buffers[BUFFERS];

static struct buffer *buffer_of(const struct mg_name *name) {
    for (size_t i = 0; i < BUFFERS; i++)
        if (buffers[i].used && !memcmp(&buffers[i].name, name, sizeof *name)) return &buffers[i];
    return NULL;
}

static void stage(const uint8_t *payload) {
    struct mg_name name = name_of(payload);
    struct buffer *found = buffer_of(&name);
    if (found) { found->used++; return; } /* the same payload twice: the program of each frees it once */
    for (size_t i = 0; i < BUFFERS; i++)
        if (!buffers[i].used) {
            buffers[i].used = 1;
            buffers[i].name = name;
            memcpy(buffers[i].payload, payload, PAYLOAD);
            return;
        }
    check(0, "no buffer is free");
}

/* ---- The driver -------------------------------------------------------------------------------------------------- */

/* Does what the die asks of the device: whether it went well, and the name of what a read gave. */
static uint32_t drive(const struct mg_call *call, struct mg_name *gave) {
    struct buffer *from;
    switch (call->kind) {
    case MG_CALL_READ: /* a copy's payload waits in a buffer; a job's payload would go to who asked for it */
        *gave = name_of(cells[call->block][call->page]);
        if (call->act == MG_COPY_READ) stage(cells[call->block][call->page]);
        return 1;
    case MG_CALL_PROGRAM: /* a payload that was staged under this name */
        from = buffer_of(&call->name);
        if (!from || programs_left == 0) return 0;
        programs_left--;
        memcpy(cells[call->block][call->page], from->payload, PAYLOAD);
        from->used--;
        return 1;
    case MG_CALL_ERASE: /* the erase is suspended after each slot but its last */
        if (call->last) memset(cells[call->block], 0xFF, sizeof cells[call->block]);
        return 1;
    default: return 1; /* nothing; or a trim, of which this driver keeps no record */
    }
}

/* One slot. The device's work is between mg_begin and mg_end. */
static uint32_t slot(mg_die *die, struct mg_reply *reply) {
    struct mg_call call;
    struct mg_name gave = {{0}};
    struct mg_waived waived[1];
    uint32_t refusal = mg_begin(die, 9, &call);
    if (refusal) return refusal;
    uint32_t ok = drive(&call, &gave);
    return mg_end(die, ok, &gave, reply, waived, 1);
}

/* ---- What is shown ----------------------------------------------------------------------------------------------- */

static mg_die made(void) {
    struct mg_plan plan = {BLOCKS, PAGES, ERASE_SLOTS, LOGICAL, 2, 0};
    struct mg_task task = {4, 0, 0, 0, 0};
    mg_die die = {0};
    check(mg_new(&die, &plan, &task, 1) == MG_OK, "new");
    memset(cells, 0xFF, sizeof cells);
    memset(buffers, 0, sizeof buffers);
    programs_left = UINT32_MAX;
    return die;
}

static uint32_t seed = 1;

static uint32_t random_page(void) { return (seed = seed * 1664525u + 1013904223u) >> 28; }

/* In each round a collection and a job that writes a page and reads it back, and slots until one is idle. Answers the
 * refusal that ends it, or 0. */
static uint32_t play(mg_die *die, uint32_t rounds, uint32_t *acts) {
    static uint8_t payload[PAYLOAD];
    for (uint32_t r = 0; r < rounds; r++) {
        uint32_t page = random_page(), now = mg_now(die), collection, job;
        struct mg_why why;
        for (size_t i = 0; i < PAYLOAD; i++) payload[i] = (uint8_t)(r + i * 7 + page);
        struct mg_op ops[2] = {{MG_WRITE, page, name_of(payload)}, {MG_READ, page, {{0}}}};
        check(mg_collect(die, 1, 0, now, now + 40, &collection, &why) == MG_OK, "collect");
        check(mg_submit(die, 1, 0, now, now + 8, ops, 2, &job, &why) == MG_OK, "submit");
        stage(payload);
        struct mg_reply reply;
        do {
            uint32_t refusal = slot(die, &reply);
            if (refusal) return refusal;
            acts[reply.act]++;
        } while (reply.act != MG_IDLE);
        struct mg_job_outcome outcome;
        struct mg_name read;
        check(mg_outcome(die, job, &outcome, &read, 1) == MG_OK, "outcome");
        check(outcome.state == MG_DONE && outcome.reads == 1, "the job is done");
        check(!memcmp(&read, &ops[0].name, sizeof read), "a read gives what was written last");
    }
    return MG_OK;
}

static void show_worst(mg_die *die) {
    static struct mg_row rows[65536];
    static uint32_t jobs[65536];
    struct mg_worst_job worst;
    struct mg_cert certificate;
    uint32_t total;
    check(mg_worst(die, &worst) == MG_OK, "worst");
    check(mg_certificate(die, &certificate, jobs, 65536) == MG_OK && certificate.job == worst.job, "certificate");
    check(mg_rows(die, rows, 65536, &total) == MG_OK, "rows");
    check(mg_check(rows, total, &certificate, jobs, certificate.jobs) == MG_OK, "the certificate holds");
    check(mg_check(rows, total, &certificate, jobs, 0) == MG_CERT_EMPTY, "none without jobs does");
    check(mg_check(rows, 0, &certificate, jobs, 1) == MG_CERT_UNKNOWN_JOB, "nor one without rows");
    printf("worst: job %" PRIu32 ", lateness %" PRId64 "; its certificate: %" PRIu32 " jobs fill slots %" PRIu32 " to %" PRIu32 "\n",
           worst.job, worst.lateness, certificate.jobs, certificate.start, certificate.completion);
}

/* Arrivals while a slot has begun, and calls that have to wait for its end. */
static void show_arrivals(mg_die *die) {
    struct mg_op read = {MG_READ, 3, {{0}}};
    struct mg_call call;
    struct mg_reply reply;
    struct mg_waived waived[16];
    struct mg_name gave;
    struct mg_why why;
    uint32_t job, other, now = mg_now(die);
    check(mg_submit(die, 1, 0, now, now + 1, &read, 1, &job, &why) == MG_OK, "submit");
    check(mg_begin(die, 9, &call) == MG_OK && call.kind == MG_CALL_READ && call.job == job, "the read has begun");
    check(mg_begin(die, 9, &call) == MG_BEGUN, "a slot that has begun is to be ended");
    check(mg_submit(die, 1, 0, now, now + 1, &read, 1, &other, &why) == MG_BEGUN, "this could change the choice");
    check(mg_submit(die, 1, 0, now + 1, now + 2, &read, 1, &other, &why) == MG_OK, "this can't");
    check(mg_renew(die, &why) == MG_BEGUN, "no renewal within a slot");
    check(drive(&call, &gave) && mg_end(die, 1, &gave, &reply, waived, 16) == MG_OK && reply.job == job, "the read");
    check(mg_end(die, 1, &gave, &reply, waived, 16) == MG_NOT_BEGUN, "it was ended");
    check(mg_renew(die, &why) == MG_NOT_QUIET && why.first == other, "it waits for the other");
    check(slot(die, &reply) == MG_OK && reply.job == other && reply.finished, "the other read");
    check(mg_renew(die, &why) == MG_OK && mg_now(die) == 0 && mg_len(die) == 0, "a new log, and the pages stay");
    puts("arrivals between begin and end, and a renewal");
}

/* What a slot waives is not waived before its end: until then its tokens aren't there, and its task has a collection. */
static void show_waiver(void) {
    struct mg_op writes[3] = {{MG_WRITE, 0, {{1}}}, {MG_WRITE, 1, {{2}}}, {MG_WRITE, 2, {{3}}}};
    struct mg_call call;
    struct mg_reply reply;
    struct mg_waived waived[16];
    struct mg_name gave = {{0}};
    struct mg_why why;
    uint32_t job, collection;
    mg_die die = made();
    check(mg_submit(&die, 1, 0, 0, 2, writes, 2, &job, &why) == MG_OK, "2 of 4 tokens are taken");
    for (int i = 0; i < 2; i++) {
        check(mg_begin(&die, 9, &call) == MG_OK && call.act == MG_DID_WRITE, "a write has begun");
        check(mg_end(&die, 1, &gave, &reply, waived, 16) == MG_OK, "and is done");
    }
    check(mg_collect(&die, 1, 0, 2, 9, &collection, &why) == MG_OK, "a collection, while many pages are spare");
    check(mg_begin(&die, 9, &call) == MG_OK && call.kind == MG_CALL_NONE, "a slot that waives it has begun");
    check(mg_submit(&die, 1, 0, 3, 9, writes, 3, &job, &why) == MG_NO_TOKENS && why.first == 2 && why.second == 3, "2 are there");
    check(mg_collect(&die, 1, 0, 3, 9, &job, &why) == MG_COLLECTOR_BUSY, "it isn't waived yet");
    check(mg_end(&die, 1, &gave, &reply, waived, 16) == MG_OK && reply.waived == 1, "it is waived");
    check(waived[0].job == collection && waived[0].given == 2, "which gives 2 tokens");
    check(mg_submit(&die, 1, 0, 3, 9, writes, 3, &job, &why) == MG_OK, "4 are there");
    check(mg_collect(&die, 1, 0, 3, 9, &job, &why) == MG_OK, "and the task has no collection");
    mg_free(&die);
    puts("what a slot waives is not waived before its end");
}

/* A page that the chip corrupts is never given out: its read is a fault. */
static void show_corruption(mg_die *die) {
    struct mg_op read = {MG_READ, 3, {{0}}};
    struct mg_call call;
    struct mg_reply reply;
    struct mg_waived waived[16];
    struct mg_job_outcome outcome;
    struct mg_name gave;
    struct mg_why why;
    uint32_t job, now = mg_now(die);
    check(mg_submit(die, 1, 0, now, now + 1, &read, 1, &job, &why) == MG_OK, "submit");
    check(mg_begin(die, 9, &call) == MG_OK && call.kind == MG_CALL_READ, "the read has begun");
    cells[call.block][call.page][17] ^= 1;
    check(drive(&call, &gave) && mg_end(die, 1, &gave, &reply, waived, 16) == MG_DEVICE_FAULT, "it is corrupted");
    check(mg_outcome(die, job, &outcome, &gave, 1) == MG_OK && outcome.state == MG_WAITING, "the read wasn't done");
    check(mg_now(die) == now, "nor is its slot in the log");
    check(mg_begin(die, 9, &call) == MG_DIE_STOPPED, "the die is stopped");
    puts("a corrupted page is a fault");
}

/* A die that is stopped still says where each page lies: so all of them are read from the chip, which is intact but for a cell. */
static void show_rescue(const mg_die *die) {
    uint32_t found = 0;
    for (uint32_t page = 0; page < LOGICAL; page++) {
        struct mg_cell at;
        check(mg_place(die, page, &at) == MG_OK, "a place");
        if (at.block == MG_NOWHERE) continue; /* it was never written, or was trimmed */
        const uint8_t *payload = cells[at.block][at.page];
        for (size_t i = 1; i < PAYLOAD; i++) check(payload[i] == (uint8_t)(payload[0] + i * 7), "a payload as `play` makes it");
        found++;
    }
    check(found > 1, "pages that are found");
}

/* What a driver writes down when it shuts down, and reads back when it goes on. */
static struct {
    struct mg_cell places[LOGICAL];
    struct mg_name names[LOGICAL];
    struct mg_block blocks[BLOCKS];
    uint32_t balance, spare;
    int is_void; /* it was destroyed, so that no die is made of it any more */
} kept;

static uint32_t shut_down(mg_die *die, struct mg_why *why) {
    kept.is_void = 0;
    return mg_checkpoint(die, kept.places, LOGICAL, kept.names, LOGICAL, kept.blocks, BLOCKS, &kept.balance, 1, &kept.spare, NULL, why);
}

static uint32_t go_on(mg_die *die, struct mg_why *why) {
    struct mg_plan plan = {BLOCKS, PAGES, ERASE_SLOTS, LOGICAL, 2, 0};
    struct mg_task task = {4, 0, 0, 0, 0};
    check(!kept.is_void, "a checkpoint is used once");
    return mg_resume(die, &plan, &task, 1, kept.places, LOGICAL, kept.names, LOGICAL, kept.blocks, BLOCKS, &kept.balance, 1,
                        kept.spare, NULL, why);
}

/* Before the die's first program what was written down is destroyed. */
static void destroy(mg_die *die) {
    kept.is_void = 1;
    check(mg_checkpoint_void(die) == MG_OK, "it is void");
}

/* A die is freed and made again, while the chip keeps its pages. */
static void show_shutdown(void) {
    static uint8_t payload[PAYLOAD];
    uint32_t job, acts[7] = {0};
    struct mg_why why;
    struct mg_reply reply;
    struct mg_call call;
    struct mg_waived waived[16];
    struct mg_name gave;
    mg_die die = made();
    check(play(&die, 30, acts) == MG_OK, "30 rounds");
    memset(payload, 5, PAYLOAD);
    struct mg_op write = {MG_WRITE, 3, name_of(payload)}, read = {MG_READ, 3, {{0}}};
    check(mg_submit(&die, 1, 0, mg_now(&die), mg_now(&die) + 9, &write, 1, &job, &why) == MG_OK, "page 3 is to be written");
    check(shut_down(&die, &why) == MG_NOT_QUIET && why.first == job, "not while a job waits");
    stage(payload);
    check(slot(&die, &reply) == MG_OK && reply.finished, "it is done");
    check(shut_down(&die, &why) == MG_OK, "what stands is reported");
    check(!memcmp(&kept.names[3], &write.name, sizeof write.name), "a page's name is what was written last");
    mg_free(&die);

    kept.spare++;
    check(go_on(&die, &why) == MG_OTHER_SUM && why.first == why.second + 1, "a page more than are free");
    kept.spare--;
    check(go_on(&die, &why) == MG_OK && mg_now(&die) == 0 && mg_len(&die) == 0, "it goes on with an empty log");
    check(mg_submit(&die, 1, 0, 0, 9, &read, 1, &job, &why) == MG_OK && slot(&die, &reply) == MG_OK
          && !memcmp(&reply.name, &write.name, sizeof write.name), "page 3 is there");
    check(mg_submit(&die, 1, 0, mg_now(&die), mg_now(&die) + 9, &write, 1, &job, &why) == MG_OK && mg_begin(&die, 9, &call) == MG_CHECKPOINT_STANDS,
          "nothing is programmed while the checkpoint stands");
    destroy(&die);
    stage(payload);
    check(slot(&die, &reply) == MG_OK && reply.finished, "page 3 is written again");
    check(play(&die, 30, acts) == MG_OK, "30 rounds more");
    check(shut_down(&die, &why) == MG_OK, "a second time");
    mg_free(&die);

    cells[kept.places[3].block][kept.places[3].page][17] ^= 1;
    check(go_on(&die, &why) == MG_OK, "the chip has changed page 3 meanwhile");
    check(mg_submit(&die, 1, 0, 0, 9, &read, 1, &job, &why) == MG_OK && mg_begin(&die, 9, &call) == MG_OK, "its read begins");
    check(drive(&call, &gave) && mg_end(&die, 1, &gave, &reply, waived, 16) == MG_DEVICE_FAULT, "and is a fault");
    mg_free(&die);
    puts("a shutdown, and a die that goes on");
}

static void show_refusals(mg_die *die) {
    struct mg_op ops[65] = {{MG_WRITE, 0, {{0}}}};
    struct mg_why why = {0, 0};
    uint32_t job = 77;
    char name[14];
    check(mg_submit(die, 1, 0, 0, 1, ops, 0, &job, &why) == MG_EMPTY_JOB, "empty");
    check(mg_submit(die, 1, 0, 0, 1, ops, 65, &job, &why) == MG_TOO_MANY_OPS, "65 operations");
    check(mg_submit(die, 1, 1, 0, 1, ops, 1, &job, &why) == MG_UNKNOWN_TASK, "task 1");
    for (size_t i = 0; i < 5; i++) ops[i].kind = MG_WRITE;
    check(mg_submit(die, 1, 0, 0, 1, ops, 5, &job, &why) == MG_NO_TOKENS && why.first == 4 && why.second == 5, "5 writes");
    ops[1].page = LOGICAL;
    check(mg_submit(die, 1, 0, 0, 1, ops, 2, &job, &why) == MG_BAD_PAGE && why.first == LOGICAL, "page 16");
    ops[0].kind = 3;
    check(mg_submit(die, 1, 0, 0, 1, ops, 1, &job, &why) == MG_BAD_KIND && job == 77, "kind 3");
    check(mg_refusal_name(MG_NO_TOKENS, name, sizeof name) == 8 && !strcmp(name, "NoTokens"), "a name");
    puts("refusals have their numbers");
}

int main(void) {
    uint32_t acts[7] = {0};
    check(MG_FITS(mg_version()), "the library has what the header says");
    mg_die die = made();
    show_refusals(&die);
    check(play(&die, 200, acts) == MG_OK, "200 rounds");
    printf("%" PRIu32 " writes, %" PRIu32 " reads, %" PRIu32 " copies, %" PRIu32 " erase slots\n", acts[MG_DID_WRITE],
           acts[MG_DID_READ], acts[MG_COPY_PROGRAM], acts[MG_ERASE]);
    check(acts[MG_COPY_PROGRAM] > 0 && acts[MG_ERASE] > 0, "collections copied and erased");
    show_worst(&die);
    show_arrivals(&die);
    show_waiver();
    show_corruption(&die);
    mg_free(&die);

    die = made();
    programs_left = 20;
    check(play(&die, 200, acts) == MG_DEVICE_FAULT, "a program fails");
    check(play(&die, 0, acts) == MG_OK && mg_reserve(&die, 1) == MG_OK, "questions and room are to be had");
    show_rescue(&die);
    mg_free(&die);
    puts("a program that fails stops the die");
    show_shutdown();
    puts("all as it should be");
    return 0;
}
