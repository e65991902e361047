/* Compares mg_memory with a heap that counts: births and reserves of many shapes, whose bytes have to be as it says; lives in
 * what is reserved, which have to ask for nothing; and lives in which nothing is, which have to stay below what it says, and
 * not far below. While a block is moved, both count. It has the three heap functions in itself.
 *
 *   measured [TIMES]    10, and from then on a whole life, too */
#include "maulgreen.h"
#include <inttypes.h>
#include <stdio.h>
#include <stdlib.h>
#include <string.h>

static void check(int holds, const char *what) {
    if (!holds) { printf("wrong: %s\n", what); exit(1); }
}

/* ---- The heap ---------------------------------------------------------------------------------------------------- */

static uint64_t held, top, asked;
static int refuses; /* one call in this number is refused; 0: none; 1: each */

static uint64_t state = 1;

static uint32_t below(uint32_t bound) { /* splitmix64 */
    uint64_t z = (state += 0x9E3779B97F4A7C15u);
    z = (z ^ (z >> 30)) * 0xBF58476D1CE4E5B9u;
    z = (z ^ (z >> 27)) * 0x94D049BB133111EBu;
    return (uint32_t)((z ^ (z >> 31)) % bound);
}

static uint32_t between(uint32_t least, uint32_t most) { return least + below(most - least + 1); }

static uint64_t most(uint64_t a, uint64_t b) { return a > b ? a : b; }

static union size { size_t size; _Alignas(16) char room[16]; } *before(void *at) { return (union size *)at - 1; }

void *mg_alloc(size_t size, size_t align) {
    asked++;
    if (align > 16 || (refuses && !below((uint32_t)refuses))) return NULL;
    union size *block = malloc(sizeof *block + size);
    if (!block) return NULL;
    block->size = size;
    held += size;
    if (held > top) top = held;
    return block + 1;
}

void mg_dealloc(void *at) {
    held -= before(at)->size;
    free(before(at));
}

void *mg_realloc(void *at, size_t kept, size_t size, size_t align) {
    void *to = mg_alloc(size, align); /* it always moves: the old block is there, too */
    if (!to) return NULL;
    memcpy(to, at, kept);
    mg_dealloc(at);
    return to;
}

/* ---- Plans and lives --------------------------------------------------------------------------------------------- */

static struct mg_plan plan;
static struct mg_task tasks[16];
static uint32_t task_count;

static void random_plan(void) {
    do {
        plan = (struct mg_plan){between(2, below(8) ? 40 : 300), between(2, below(8) ? 24 : 256), between(1, 4), 0, 0, below(2) ? 64 : 0};
        plan.alpha = between(1, plan.pages);
        plan.logical = between(1, plan.blocks * plan.pages);
        task_count = between(1, 16);
        for (uint32_t t = 0; t < task_count; t++) tasks[t] = (struct mg_task){between(1, 12), 32, 64, 4, 2};
    } while (mg_plan_bound(&plan, tasks, task_count) != MG_OK);
}

static struct mg_bytes said(uint32_t slots, uint32_t jobs, uint32_t operations) {
    struct mg_bytes bytes;
    check(mg_memory(&plan, tasks, task_count, slots, jobs, operations, &bytes) == MG_OK, "memory");
    return bytes;
}

/* What a life may still have, and what it had. */
struct life { uint32_t slots, jobs, operations; };

/* One arrival, as the life allows. */
static void arrive(mg_die *die, uint32_t least, uint32_t most_ops, struct life *left, struct life *had) {
    struct mg_op ops[64];
    uint32_t task = below(task_count), release = least + below(20), due = release + between(1, 60), count = between(1, most_ops), code;
    int collects = !below(3);
    if (collects) count = 0;
    if (!left->jobs || left->operations < count) return;
    for (uint32_t i = 0; i < count; i++) ops[i] = (struct mg_op){below(8) ? MG_READ : between(MG_WRITE, MG_TRIM), below(plan.logical), {{(uint8_t)i}}};
    if (due > 1048576) return;
    code = collects ? mg_collect(die, below(1000), task, release, due, NULL, NULL)
                    : mg_submit(die, below(1000), task, release, due, ops, count, NULL, NULL);
    check(refuses != 1 || code != MG_NO_MEMORY, "what is reserved is never refused");
    if (code) return;
    left->jobs--, left->operations -= count;
    had->jobs++, had->operations += count;
}

/* Slots and arrivals, some between begin and end, until `left` is used up or all slots are over. */
static struct life play(mg_die *die, struct life left, uint32_t most_ops) {
    struct life had = {0, 0, 0};
    while (left.slots > 0) {
        struct mg_call call;
        struct mg_reply reply;
        for (uint32_t n = below(3); n > 0; n--) arrive(die, mg_now(die), most_ops, &left, &had);
        uint32_t code = mg_begin(die, below(1000), &call);
        check(refuses != 1 || code != MG_NO_MEMORY, "a reserved slot is never refused");
        if (code == MG_NO_MEMORY) continue;
        check(code == MG_OK, "begin");
        if (!below(4)) arrive(die, call.slot + 1, most_ops, &left, &had);
        check(mg_end(die, 1, &call.name, &reply, NULL, 0) == MG_OK, "end");
        left.slots--, had.slots++;
    }
    return had;
}

static mg_die made(void) {
    mg_die die = {0};
    held = top = 0;
    check(mg_new(&die, &plan, tasks, task_count) == MG_OK, "new");
    return die;
}

/* ---- What is compared -------------------------------------------------------------------------------------------- */

/* The formulas of maulgreen.h, by whom mg_memory isn't written. */
static void show_formulas(uint32_t plans) {
    for (uint32_t n = 0; n < plans; n++) {
        random_plan();
        const uint32_t jobs = between(64, 65536), slots = between(jobs, 1048576), operations = between(64, 64 * jobs);
        const uint64_t cells = plan.blocks * plan.pages, listed = task_count <= 4 ? 4 : task_count <= 8 ? 8 : 16;
        const uint64_t birth = 1136 + 20 * cells + 4 * plan.logical + 60 * plan.blocks + 8 * (plan.pages + 1) + 8 * ((plan.blocks + 63) / 64)
                               + 53 * task_count + 4 * listed + (plan.common ? 16 * listed : 0);
        const struct mg_bytes bytes = said(slots, jobs, operations);
        check(bytes.birth == birth, "the formula of a birth");
        check(bytes.reserved == birth + (uint64_t)24 * slots + (uint64_t)108 * jobs + (uint64_t)37 * operations + 12 * task_count,
              "that of what is reserved");
        check(bytes.life >= birth + (uint64_t)24 * slots + (uint64_t)112 * jobs + (uint64_t)42 * operations, "a life takes no less");
        check(bytes.life <= birth + (uint64_t)48 * slots + (uint64_t)200 * jobs + (uint64_t)42 * operations + 8192
                            + most(most((uint64_t)16 * (slots + jobs), (uint64_t)48 * jobs), (uint64_t)16 * operations), "and no more");
        check(bytes.question <= most((uint64_t)96 * jobs, (uint64_t)60 * plan.logical + 8 * plan.blocks + 4 * task_count) + 1024, "a question");
    }
}

static void show_births(uint32_t shapes) {
    for (uint32_t n = 0; n < shapes; n++) {
        random_plan();
        struct life life = {below(4) ? below(3000) : 0, below(4) ? below(400) : below(6), below(4) ? below(900) : below(9)};
        struct mg_bytes bytes = said(life.slots, life.jobs, life.operations);
        mg_die die = made();
        check(held == bytes.birth && top == held, "a birth takes as many bytes as are said");
        check(mg_reserve_jobs(&die, life.jobs, life.operations) == MG_OK && mg_reserve(&die, life.slots) == MG_OK, "reserves");
        check(top == bytes.reserved, "what is reserved takes as many bytes as are said");
        uint64_t before_asking = asked;
        refuses = 1;
        check(mg_reserve(&die, life.slots) == MG_OK && mg_reserve_jobs(&die, life.jobs, life.operations) == MG_OK, "a second time it is had");
        play(&die, life, n % 5 ? 6 : 64);
        refuses = 0;
        check(asked == before_asking && top == bytes.reserved, "and a life in it asks for nothing");
        mg_free(&die);
        check(held == 0, "all is given back");
    }
    printf("%" PRIu32 " births and reserves take as many bytes as mg_memory says, and %" PRIu32 " lives within them none\n", shapes, shapes);
}

/* Slots until nothing waits. */
static void settle(mg_die *die) {
    struct mg_call call;
    struct mg_reply reply;
    while (mg_renew(die, NULL) == MG_NOT_QUIET)
        check(mg_begin(die, 1, &call) == MG_OK && mg_end(die, 1, &call.name, &reply, NULL, 0) == MG_OK, "a slot");
}

static int drop(void *to, const char *text, size_t size) {
    (void)to, (void)text, (void)size;
    return 0;
}

static void ask(mg_die *die, uint64_t bytes) {
    static uint32_t numbers[65536];
    struct mg_cert cert;
    const mg_die *one = die;
    uint64_t before_asking = held;
    top = held;
    mg_certificate(die, &cert, numbers, 65536);
    check(mg_report(&one, 1, drop, NULL) == MG_OK, "a report");
    check(top <= before_asking + bytes && held == before_asking, "questions take no more than is said, and give it back");
}

static void show_resumption(mg_die *die, const struct mg_bytes *bytes) {
    static struct mg_cell places[65536];
    static struct mg_name names[65536];
    static struct mg_block blocks[1024];
    uint32_t balances[16], spare;
    top = held;
    check(mg_checkpoint(die, places, 65536, names, 65536, blocks, 1024, balances, 16, &spare, NULL, NULL) == MG_OK, "a checkpoint");
    check(top <= held + bytes->question, "it takes no more than is said");
    mg_free(die);
    check(held == 0, "all is given back");
    top = 0;
    check(mg_resume(die, &plan, tasks, task_count, places, plan.logical, names, plan.logical, blocks, plan.blocks, balances,
                    task_count, spare, NULL, NULL) == MG_OK, "it goes on");
    check(top == bytes->resume && held == bytes->birth, "a resumption takes as many bytes as are said");
}

/* A life in which nothing is reserved. Answers, in percent, how much of what is said it took. */
static uint32_t show_life(struct life life, uint32_t most_ops, int refused) {
    mg_die die = made();
    refuses = refused;
    struct life had = play(&die, life, most_ops);
    refuses = 0;
    struct mg_bytes bytes = said(had.slots, had.jobs, had.operations);
    check(top <= bytes.life, "a life takes no more than is said");
    uint32_t part = (uint32_t)((top - bytes.birth) * 100 / (bytes.life - bytes.birth));
    if (had.jobs < 20000) ask(&die, bytes.question); /* a report takes a step for each job and each entry before it */
    settle(&die);
    check(mg_renew_giving_back(&die, NULL) == MG_OK && held == bytes.birth, "a renewal gives all of it back");
    show_resumption(&die, &bytes);
    mg_free(&die);
    check(held == 0, "all is given back");
    return part;
}

static void show_lives(uint32_t lives) {
    uint32_t part, least = 100, greatest = 0;
    for (uint32_t n = 0; n < lives; n++) {
        random_plan();
        part = show_life((struct life){between(2000, 9000), 65536, UINT32_MAX}, n % 5 ? 6 : 64, n % 3 ? 0 : 5);
        if (part < least) least = part;
        if (part > greatest) greatest = part;
    }
    check(least >= 35, "it isn't far below");
    printf("%" PRIu32 " lives took %" PRIu32 " to %" PRIu32 " percent of what mg_memory says beside the birth\n", lives, least, greatest);
}

/* A whole life: all slots and jobs, of sixteen operations each. */
static void show_whole_life(void) {
    plan = (struct mg_plan){64, 32, 3, 1024, 8, 0};
    task_count = 4;
    for (uint32_t t = 0; t < 4; t++) tasks[t] = (struct mg_task){32, 0, 0, 0, 0};
    struct life all = {1048576, 65536, 65536 * 15};
    struct mg_bytes bytes = said(all.slots, all.jobs, all.operations);
    printf("64 blocks of 32 pages, a life of 1,048,576 slots and 65,536 jobs of 15 operations: birth %" PRIu64 ", reserved %" PRIu64
           ", life %" PRIu64 ", question %" PRIu64 ", resume %" PRIu64 "\n",
           bytes.birth, bytes.reserved, bytes.life, bytes.question, bytes.resume);
    printf("such a life takes %" PRIu32 " percent of it\n", show_life(all, 29, 0));
}

int main(int argc, char **argv) {
    uint32_t times = argc > 1 ? (uint32_t)atoi(argv[1]) : 10;
    show_formulas(100 * times);
    show_births(40 * times);
    show_lives(6 * times);
    if (times >= 10) show_whole_life();
    return 0;
}
