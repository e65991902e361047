/* What a careful program in C may do: questions to an empty handle and to none, null pointers where they are allowed and where
 * they aren't, memory that is refused, and the order in which refusals come. It has the heap in itself. */
#include "maulgreen.h"
#include <inttypes.h>
#include <stdio.h>
#include <stdlib.h>
#include <string.h>

static uint32_t left = UINT32_MAX; /* how many more calls of the heap are granted */

void *mg_alloc(size_t size, size_t align) {
    if (size == 0 || align == 0 || align > 16 || (align & (align - 1))) { puts("wrong: a size or an alignment"); exit(1); }
    return left && left-- ? malloc(size) : NULL;
}

void *mg_realloc(void *at, size_t kept, size_t size, size_t align) {
    if (size == 0 || kept > size || align > 16) { puts("wrong: a size or an alignment"); exit(1); }
    return left && left-- ? realloc(at, size) : NULL;
}

void mg_dealloc(void *at) { free(at); }

static void check(int holds, const char *what) {
    if (!holds) { printf("wrong: %s\n", what); exit(1); }
}

enum { BLOCKS = 8, PAGES = 4, LOGICAL = 16 };
static const struct mg_plan plan = {BLOCKS, PAGES, 3, LOGICAL, 2, 0};
static const struct mg_task task = {4, 0, 0, 0, 0};
static const struct mg_why unsaid = {77, 78};

static int says(const struct mg_why *why, uint32_t first, uint32_t second) { return why->first == first && why->second == second; }

/* Every call of a handle that has no die, or of none. */
static void of_no_die(mg_die *die) {
    struct mg_why why = unsaid;
    struct mg_call call;
    struct mg_reply reply;
    struct mg_name name = {{0}};
    struct mg_job_head head;
    struct mg_job_outcome outcome;
    struct mg_worst_job worst;
    struct mg_cert cert;
    uint32_t number = 5, spare = 6, total = 7;
    struct mg_cell cell = {1, 2};
    struct mg_entry entry = {1, 2, 3, 4, 5};
    struct mg_waived waived = {1, 2};
    struct mg_op read = {MG_READ, 0, {{0}}};
    mg_free(die);
    mg_free(die);
    check(mg_now(die) == 0 && mg_len(die) == 0 && mg_records(die) == 0, "it has no log");
    check(mg_submit(die, 1, 0, 0, 1, &read, 1, &number, &why) == MG_EMPTY_HANDLE && says(&why, 0, 0), "submit");
    why = unsaid;
    check(mg_collect(die, 1, 0, 0, 1, &number, &why) == MG_EMPTY_HANDLE && says(&why, 0, 0), "collect");
    check(mg_begin(die, 1, &call) == MG_EMPTY_HANDLE && mg_end(die, 1, &name, &reply, NULL, 0) == MG_EMPTY_HANDLE, "a slot");
    check(mg_reserve(die, 1) == MG_EMPTY_HANDLE && mg_reserve_jobs(die, 1, 1) == MG_EMPTY_HANDLE, "reserves");
    why = unsaid;
    check(mg_renew(die, NULL) == MG_EMPTY_HANDLE && mg_renew(die, &why) == MG_EMPTY_HANDLE && says(&why, 0, 0), "renew");
    why = unsaid;
    check(mg_renew_giving_back(die, NULL) == MG_EMPTY_HANDLE && mg_renew_giving_back(die, &why) == MG_EMPTY_HANDLE && says(&why, 0, 0),
          "the other renewal");
    check(mg_place(die, 0, &cell) == MG_EMPTY_HANDLE && cell.block == 1 && cell.page == 2, "a place");
    check(mg_entries(die, 0, &entry, 1) == MG_EMPTY_HANDLE && entry.what == 1 && entry.waived == 5, "entries");
    check(mg_entry_waived(die, 0, &waived, 1) == MG_EMPTY_HANDLE && waived.job == 1, "what was waived");
    check(mg_checkpoint(die, NULL, 0, NULL, 0, NULL, 0, NULL, 0, &spare, NULL, NULL) == MG_EMPTY_HANDLE, "checkpoint");
    check(mg_checkpoint_void(die) == MG_EMPTY_HANDLE, "and its end");
    check(mg_job(die, 0, &head) == MG_EMPTY_HANDLE && mg_outcome(die, 0, &outcome, NULL, 0) == MG_EMPTY_HANDLE, "a job");
    check(mg_worst(die, &worst) == MG_EMPTY_HANDLE && mg_certificate(die, &cert, NULL, 0) == MG_EMPTY_HANDLE, "the worst");
    check(mg_rows(die, NULL, 0, &total) == MG_EMPTY_HANDLE && number == 5 && spare == 6 && total == 7, "and nothing is written");
}

static void show_handles(void) {
    mg_die die = {0};
    of_no_die(NULL);
    of_no_die(&die);
    check(mg_new(NULL, &plan, &task, 1) == MG_EMPTY_HANDLE, "a die needs a handle");
    check(mg_new(&die, &plan, &task, 1) == MG_OK, "new");
    check(mg_new(&die, &plan, &task, 1) == MG_FULL_HANDLE, "a die isn't lost");
    struct mg_why why = unsaid;
    check(mg_resume(&die, &plan, &task, 1, NULL, 0, NULL, 0, NULL, 0, NULL, 0, 0, NULL, &why) == MG_FULL_HANDLE && says(&why, 0, 0), "nor then");
    mg_free(&die);
    of_no_die(&die);
}

static void show_pointers(void) {
    mg_die die = {0};
    struct mg_call call;
    struct mg_reply reply;
    struct mg_name name = {{7}};
    struct mg_job_outcome outcome;
    struct mg_worst_job worst;
    struct mg_cert cert;
    struct mg_load load;
    struct mg_cell cell;
    struct mg_entry entries[3] = {{0, 0, 0, 0, 0}};
    struct mg_bytes bytes;
    uint32_t total, spare;
    struct mg_op ops[2] = {{MG_WRITE, 3, {{7}}}, {MG_READ, 3, {{0}}}};
    check(mg_plan_bound(&plan, NULL, 0) == MG_BAD_PLAN && mg_plan_test(&plan, NULL, 0, &load) == MG_BAD_PLAN, "no task");
    check(mg_plan_bound(NULL, &task, 1) == MG_NULL_POINTER && mg_plan_bound(&plan, NULL, 1) == MG_NULL_POINTER, "no plan");
    check(mg_plan_test(&plan, &task, 1, NULL) == MG_NULL_POINTER && mg_check(NULL, 0, NULL, NULL, 0) == MG_NULL_POINTER, "nothing");
    check(mg_memory(NULL, &task, 1, 1, 1, 1, &bytes) == MG_NULL_POINTER && mg_memory(&plan, NULL, 1, 1, 1, 1, &bytes) == MG_NULL_POINTER
          && mg_memory(&plan, &task, 1, 1, 1, 1, NULL) == MG_NULL_POINTER && mg_memory(&plan, NULL, 0, 1, 1, 1, &bytes) == MG_BAD_PLAN,
          "memory of no plan");
    check(mg_memory(&plan, &task, 1, UINT32_MAX, UINT32_MAX, UINT32_MAX, &bytes) == MG_OK && bytes.reserved > (uint64_t)UINT32_MAX * 100,
          "as much as there may be");
    check(mg_new(&die, &plan, NULL, 0) == MG_BAD_PLAN && mg_new(&die, NULL, &task, 1) == MG_NULL_POINTER, "the same");
    check(mg_new(&die, &plan, &task, 1) == MG_OK, "new");
    check(mg_submit(&die, 1, 0, 0, 2, NULL, 0, NULL, NULL) == MG_EMPTY_JOB, "no operation");
    check(mg_submit(&die, 1, 0, 0, 2, NULL, 1, NULL, NULL) == MG_NULL_POINTER, "an operation that isn't there");
    check(mg_submit(&die, 1, 0, 0, 2, ops, 2, NULL, NULL) == MG_OK, "its number isn't wanted");
    check(mg_collect(&die, 1, 0, 5, 9, NULL, NULL) == MG_OK, "nor this one");
    check(mg_begin(&die, 9, NULL) == MG_NULL_POINTER && mg_begin(&die, 9, &call) == MG_OK, "begin");
    check(mg_end(&die, 1, NULL, &reply, NULL, 0) == MG_NULL_POINTER && mg_end(&die, 1, &name, NULL, NULL, 0) == MG_NULL_POINTER, "end");
    check(mg_end(&die, 1, &name, &reply, NULL, 1) == MG_NULL_POINTER, "no room for one");
    check(mg_end(&die, 1, &name, &reply, NULL, 0) == MG_OK && mg_begin(&die, 9, &call) == MG_OK, "the write, and its read");
    check(mg_end(&die, 1, &call.name, &reply, NULL, 0) == MG_OK && reply.finished, "the job is done");
    check(mg_outcome(&die, 0, &outcome, NULL, 0) == MG_OK && outcome.reads == 1, "how many reads");
    check(mg_outcome(&die, 0, &outcome, NULL, 1) == MG_NULL_POINTER && mg_outcome(&die, 0, NULL, NULL, 0) == MG_NULL_POINTER, "not there");
    check(mg_worst(&die, &worst) == MG_OK && mg_worst(&die, NULL) == MG_NULL_POINTER, "worst");
    check(mg_place(&die, 3, &cell) == MG_OK && cell.block == 0 && cell.page == 0 && mg_place(&die, 3, NULL) == MG_NULL_POINTER, "a place");
    check(mg_place(&die, LOGICAL, &cell) == MG_OK && cell.block == MG_NOWHERE, "a page that isn't there lies nowhere");
    check(mg_entries(&die, 0, NULL, 0) == MG_OK && mg_entries(&die, 0, NULL, 1) == MG_NULL_POINTER, "entries");
    check(mg_entries(&die, 2, entries, 3) == MG_OK && entries[0].what == MG_OPERATION && entries[1].what == MG_LAST_OPERATION, "two slots");
    check(entries[0].caller == 9 && entries[1].at == 1 && entries[2].what == 0 && entries[2].caller == 0, "and no third one");
    check(mg_entries(&die, UINT32_MAX, entries + 2, 1) == MG_OK && entries[2].caller == 0, "nor one beyond");
    check(mg_entry_waived(&die, 2, NULL, 0) == MG_OK && mg_entry_waived(&die, 2, NULL, 1) == MG_NULL_POINTER, "what was waived");
    check(mg_certificate(&die, &cert, NULL, 0) == MG_OK && cert.jobs == 1, "how many jobs");
    check(mg_rows(&die, NULL, 0, &total) == MG_OK && total == 2, "how many rows");
    check(mg_renew(&die, NULL) == MG_NOT_QUIET && mg_renew_giving_back(&die, NULL) == MG_NOT_QUIET, "the collection waits");
    check(mg_checkpoint(&die, NULL, 0, NULL, 0, NULL, 0, NULL, 0, NULL, NULL, NULL) == MG_NULL_POINTER, "where to");
    check(mg_checkpoint(&die, NULL, 0, NULL, 0, NULL, 0, NULL, 0, &spare, NULL, NULL) == MG_NOT_QUIET, "the same");
    check(mg_refusal_name(MG_NO_TOKENS, NULL, 0) == 8, "the length of a name");
    mg_free(&die);
}

/* A job that is due after its first slot, and has two. */
static void show_overdue(void) {
    mg_die die = {0};
    struct mg_call call;
    struct mg_reply reply;
    struct mg_name name = {{7}};
    struct mg_overdue_job overdue = {5, 6, 7};
    struct mg_op ops[2] = {{MG_WRITE, 3, {{7}}}, {MG_READ, 3, {{0}}}};
    check(mg_overdue(&die, &overdue) == MG_EMPTY_HANDLE && mg_new(&die, &plan, &task, 1) == MG_OK, "new");
    check(mg_submit(&die, 1, 0, 0, 1, ops, 2, NULL, NULL) == MG_OK && mg_submit(&die, 1, 0, 2, 3, ops, 2, NULL, NULL) == MG_OK, "two");
    check(mg_overdue(&die, NULL) == MG_NULL_POINTER && mg_overdue(&die, &overdue) == MG_NONE_OVERDUE, "nothing is due yet");
    check(overdue.late_by == 5 && overdue.job == 6 && overdue.due == 7, "and nothing is written");
    check(mg_begin(&die, 9, &call) == MG_OK && mg_overdue(&die, &overdue) == MG_NONE_OVERDUE, "a slot that has begun isn't in the log");
    check(mg_end(&die, 1, &name, &reply, NULL, 0) == MG_OK && mg_overdue(&die, &overdue) == MG_OK, "it is due, and half done");
    check(overdue.job == 0 && overdue.due == 1 && overdue.late_by == 1, "by a slot at least");
    check(mg_begin(&die, 9, &call) == MG_OK && mg_end(&die, 1, &call.name, &reply, NULL, 0) == MG_OK && reply.finished, "it is done");
    check(mg_overdue(&die, &overdue) == MG_NONE_OVERDUE, "the next one is due in a slot");
    check(mg_begin(&die, 9, &call) == MG_OK && mg_end(&die, 1, &name, &reply, NULL, 0) == MG_OK, "its write");
    check(mg_overdue(&die, &overdue) == MG_OK && overdue.job == 1 && overdue.due == 3 && overdue.late_by == 1, "it will be late, too");
    check(mg_begin(&die, 9, &call) == MG_OK && mg_end(&die, 0, &call.name, &reply, NULL, 0) == MG_DEVICE_FAULT, "the device fails");
    check(mg_overdue(&die, &overdue) == MG_NONE_OVERDUE, "a stopped die has no next work");
    mg_free(&die);
}

/* Memory that is refused at each call of the heap in turn. */
static void show_memory(void) {
    struct mg_task tasks[16];
    struct mg_plan wrong = plan, timed = {BLOCKS, PAGES, 3, LOGICAL, 1, 0};
    struct mg_cell places[LOGICAL];
    struct mg_name names[LOGICAL];
    struct mg_block blocks[BLOCKS];
    struct mg_why why = unsaid;
    uint32_t balance, spare, tried;
    mg_die die = {0};
    for (int i = 0; i < 16; i++) tasks[i] = task;
    wrong.blocks = 1;
    left = 0;
    check(mg_plan_bound(&wrong, tasks, 16) == MG_NO_MEMORY && mg_new(&die, &wrong, tasks, 16) == MG_NO_MEMORY, "memory comes first");
    left = UINT32_MAX;
    check(mg_plan_bound(&wrong, tasks, 16) == MG_BAD_SHAPE && mg_new(&die, &wrong, tasks, 16) == MG_BAD_SHAPE, "and then the shape");
    check(mg_new(&die, &plan, &task, 1) == MG_OK, "new");
    check(mg_checkpoint(&die, places, LOGICAL, names, LOGICAL, blocks, BLOCKS, &balance, 1, &spare, NULL, &why) == MG_OK, "checkpoint");
    check(says(&why, unsaid.first, unsaid.second), "nothing is refused");
    mg_free(&die);
    for (tried = 0;; tried++) {
        why = unsaid;
        left = tried;
        uint32_t code = mg_resume(&die, &plan, &task, 1, places, LOGICAL, names, LOGICAL, blocks, BLOCKS, &balance, 1, spare, NULL, &why);
        left = UINT32_MAX;
        if (code == MG_OK) break;
        check(code == MG_NO_MEMORY && says(&why, 0, 0) && !die.at, "a die isn't made, and why is written");
    }
    check(tried > 10 && says(&why, unsaid.first, unsaid.second), "more than ten were refused");
    mg_free(&die);
    check(mg_resume(&die, &plan, &task, 1, places, LOGICAL, names, LOGICAL, blocks, BLOCKS, &balance, 1, UINT32_MAX, NULL, &why) == MG_OTHER_SUM
          && why.first == UINT32_MAX && why.second == BLOCKS * PAGES, "a sum above 32 bits");
    /* times out of their limits, which the bound doesn't look at */
    const struct mg_task good = {4, 8, 8, 2, 1};
    struct mg_task bad[7] = {good, good, good, good, good, good, good};
    bad[0].period = 0;
    bad[1].period = 1048577;
    bad[2].collect_period = 0;
    bad[3].collect_period = 1048577;
    bad[4].work = 0;
    bad[5].work = 65;
    bad[6].writes = 3;
    timed.common = 8;
    check(mg_plan_bound(&timed, &good, 1) == MG_OK, "good times");
    for (int i = 0; i < 8; i++) {
        const struct mg_task *of = i < 7 ? &bad[i] : &good;
        if (i == 7) timed.common = 1048577;
        why = unsaid;
        check(mg_plan_bound(&timed, of, 1) == MG_BAD_PLAN && mg_new(&die, &timed, of, 1) == MG_BAD_PLAN, "times out of their limits");
        check(mg_resume(&die, &timed, of, 1, places, LOGICAL, names, LOGICAL, blocks, BLOCKS, &balance, 1, spare, NULL, &why) == MG_BAD_PLAN
              && says(&why, 0, 0), "here, too");
    }
}

/* Reserves that are refused at each call of the heap in turn, and what is reserved. */
static void show_reserves(void) {
    const struct mg_op read = {MG_READ, 0, {{0}}};
    struct mg_call call;
    struct mg_reply reply;
    uint32_t tried;
    mg_die die = {0};
    check(mg_new(&die, &plan, &task, 1) == MG_OK, "new");
    for (tried = 0;; tried++) {
        left = tried;
        uint32_t code = mg_reserve_jobs(&die, 10, 30);
        if (code == MG_OK) break;
        check(code == MG_NO_MEMORY, "nothing is reserved");
        left = 0;
        check(mg_submit(&die, 1, 0, 0, 9, &read, 1, NULL, NULL) == MG_NO_MEMORY, "so a job is refused");
    }
    check(tried > 3, "some were refused, each time later");
    left = 0;
    check(mg_reserve_jobs(&die, 10, 30) == MG_OK && mg_reserve_jobs(&die, 11, 0) == MG_NO_MEMORY, "10 are reserved, and no more");
    check(mg_reserve(&die, 0) == MG_OK && mg_reserve(&die, 1) == MG_NO_MEMORY && mg_begin(&die, 9, &call) == MG_NO_MEMORY, "and no slot is");
    left = UINT32_MAX;
    check(mg_reserve(&die, 20) == MG_OK, "20 are");
    left = 0;
    for (uint32_t i = 0; i < 10; i++) check(mg_submit(&die, i, 0, 0, 99, &read, 1, NULL, NULL) == MG_OK, "10 jobs");
    check(mg_submit(&die, 1, 0, 0, 99, &read, 1, NULL, NULL) == MG_NO_MEMORY && mg_collect(&die, 1, 0, 0, 99, NULL, NULL) == MG_NO_MEMORY,
          "they are used up");
    for (uint32_t i = 0; i < 20; i++)
        check(mg_begin(&die, i, &call) == MG_OK && mg_end(&die, 1, &call.name, &reply, NULL, 0) == MG_OK && reply.caller == i, "20 slots");
    check(mg_reserve(&die, 1) == MG_NO_MEMORY, "these are, too");
    check(mg_renew(&die, NULL) == MG_OK && mg_reserve_jobs(&die, 10, 30) == MG_OK && mg_reserve(&die, 20) == MG_OK,
          "a renewal keeps the memory: as much is reserved again");
    check(mg_renew_giving_back(&die, NULL) == MG_OK && mg_begin(&die, 9, &call) == MG_NO_MEMORY, "and another one gives it back");
    left = UINT32_MAX;
    mg_free(&die);
}

/* A driver that can't note a trim: the page wasn't trimmed, and lies where it did. */
static void show_trims(void) {
    const struct mg_op ops[3] = {{MG_WRITE, 5, {{7}}}, {MG_TRIM, 5, {{0}}}, {MG_TRIM, 5, {{0}}}};
    struct mg_call call;
    struct mg_reply reply;
    struct mg_cell cell;
    struct mg_entry entry;
    for (int noted = 0; noted < 2; noted++) {
        mg_die die = {0};
        check(mg_new(&die, &plan, &task, 1) == MG_OK && mg_submit(&die, 44, 0, 0, 9, ops, 3, NULL, NULL) == MG_OK, "new");
        check(mg_begin(&die, 9, &call) == MG_OK && mg_end(&die, 1, &call.name, &reply, NULL, 0) == MG_OK, "the write");
        check(mg_begin(&die, 9, &call) == MG_OK && call.kind == MG_CALL_TRIM && call.act == MG_DID_TRIM && call.logical == 5, "the trim");
        check(mg_place(&die, 5, &cell) == MG_OK && cell.block == 0 && cell.page == 0, "it isn't trimmed yet");
        uint32_t code = mg_end(&die, noted ? 1 : 2, &call.name, &reply, NULL, 0);
        check(code == (noted ? MG_OK : MG_DEVICE_FAULT), "whether it was noted");
        check(mg_now(&die) == (noted ? 2u : 1u) && mg_len(&die) == (noted ? 3u : 2u), "whether the slot is in the log");
        check(mg_place(&die, 5, &cell) == MG_OK && (cell.block == MG_NOWHERE) == noted, "whether it is trimmed");
        check(mg_begin(&die, 9, &call) == (noted ? MG_OK : MG_DIE_STOPPED), "whether the die goes on");
        check(mg_reserve(&die, 5) == MG_OK && mg_reserve_jobs(&die, 5, 5) == MG_OK, "memory is taken all the same");
        check(mg_renew_giving_back(&die, NULL) == (noted ? MG_BEGUN : MG_DIE_STOPPED), "and not given back");
        uint32_t caller = 0;
        check(mg_caller(&die, 0, &caller) == MG_OK && caller == 44 && mg_caller(&die, 1, &caller) == MG_UNKNOWN_JOB && caller == 44
              && mg_caller(&die, 0, NULL) == MG_NULL_POINTER, "who submitted it");
        check(mg_entries(&die, 0, &entry, 1) == MG_OK && entry.caller == 44 && entry.what == MG_SUBMITTED, "in the log, too");
        mg_free(&die);
    }
}

/* Tells a mount a block: which page its first cell has, if any, and which its second one. */
static uint32_t tell(mg_mount *mount, uint32_t first, uint64_t first_serial, uint32_t second, uint64_t second_serial) {
    const struct mg_label labels[2] = {{first_serial, first, 0}, {second_serial, second, 0}};
    return mg_mount_tell(mount, labels, 2, NULL);
}

static int needs(mg_mount *mount, uint32_t kind, uint32_t block, uint32_t last) {
    struct mg_step step;
    return mg_mount_next(mount, &step) == MG_OK && step.kind == kind && step.block == block && step.last == last;
}

/* Three slots of an erase. */
static void erase(mg_mount *mount, uint32_t block) {
    for (uint32_t slot = 0; slot < 3; slot++)
        check(needs(mount, MG_STEP_ERASE, block, slot == 2) && mg_mount_done(mount) == MG_OK, "a slot of an erase");
}

/* Every call of a handle that has no mount, or of none. */
static void of_no_mount(mg_mount *mount) {
    struct mg_why why = unsaid;
    struct mg_step step;
    struct mg_cell cell = {1, 2};
    mg_die die = {0};
    mg_mount_free(mount);
    check(mg_mount_next(mount, &step) == MG_EMPTY_HANDLE && mg_mount_done(mount) == MG_EMPTY_HANDLE && mg_mount_calls_left(mount) == 0, "steps");
    check(mg_mount_tell(mount, NULL, 0, &why) == MG_EMPTY_HANDLE && says(&why, 0, 0), "a block");
    check(mg_mount_place(mount, 0, &cell) == MG_EMPTY_HANDLE && cell.block == 1 && mg_mount_end(mount, NULL, 0, &die) == MG_EMPTY_HANDLE
          && !die.at, "places, and the end");
}

/* A part of nine blocks. Page 5 lies in the second cell of block 3; a cell before it is torn. Ten pages have to be free: those of three
 * blocks are. The first of these stands aside, and the die's block of that number is the part's last one. */
static void show_mount(void) {
    mg_mount mount = {0};
    mg_die die = {0};
    struct mg_plan large = plan;
    struct mg_step step;
    struct mg_cell cell = {1, 2};
    struct mg_why why = unsaid;
    struct mg_call call;
    struct mg_reply reply;
    struct mg_name names[6] = {{{0}}};
    uint32_t block = 99, tried;
    const struct mg_label bad[3] = {{1, 0, 0}, {0, MG_NO_LABEL, 0}, {2, LOGICAL, 0}}, late = {(uint64_t)1 << 63, 0, 0};
    const struct mg_op write = {MG_WRITE, 2, {{9}}};
    names[5].bytes[0] = 171;
    large.blocks = 1024;
    of_no_mount(NULL);
    of_no_mount(&mount);
    check(mg_serial(&die) == 0 && mg_part_block(&die, 0, &block) == MG_EMPTY_HANDLE && block == 99, "of no die");
    check(mg_mount_new(NULL, &plan, &task, 1) == MG_EMPTY_HANDLE && mg_mount_new(&mount, NULL, &task, 1) == MG_NULL_POINTER
          && mg_mount_new(&mount, &plan, NULL, 1) == MG_NULL_POINTER && mg_mount_new(&mount, &plan, NULL, 0) == MG_BAD_PLAN
          && mg_mount_new(&mount, &large, &task, 1) == MG_BAD_PLAN && !mount.at, "no mount");
    for (tried = 0;; tried++) {
        left = tried;
        uint32_t code = mg_mount_new(&mount, &plan, &task, 1);
        left = UINT32_MAX;
        if (code == MG_OK) break;
        check(code == MG_NO_MEMORY && !mount.at, "no memory");
    }
    check(tried > 3 && mg_mount_new(&mount, &plan, &task, 1) == MG_FULL_HANDLE, "a mount isn't lost");
    check(mg_mount_next(&mount, NULL) == MG_NULL_POINTER && mg_mount_tell(&mount, NULL, 1, &why) == MG_NULL_POINTER && says(&why, 0, 0),
          "null pointers");
    check(mg_mount_done(&mount) == MG_WRONG_STEP && mg_mount_place(&mount, 5, &cell) == MG_WRONG_STEP && cell.block == 1
          && mg_mount_calls_left(&mount) == 0 && mg_mount_end(&mount, names, 6, &die) == MG_WRONG_STEP && !die.at, "blocks come first");
    const struct mg_label many[5] = {{1, 0, 0}, {2, 0, 0}, {3, 0, 0}, {4, 0, 0}, {5, 0, 0}};
    check(mg_mount_tell(&mount, many, 5, &why) == MG_TOO_MANY_CELLS && says(&why, 0, 0), "too many cells");
    check(mg_mount_tell(&mount, bad, 3, &why) == MG_BAD_LABEL && says(&why, 2, 0) && mg_mount_tell(&mount, &late, 1, NULL) == MG_BAD_LABEL,
          "labels out of their range");
    for (uint32_t b = 0; b < 8; b++) {
        check(needs(&mount, MG_STEP_TELL, b, 0), "the next block");
        check((b == 3 ? tell(&mount, MG_NO_LABEL, 0, 5, 41) : mg_mount_tell(&mount, NULL, 0, NULL)) == MG_OK, "a block is told");
    }
    check(needs(&mount, MG_STEP_TELL, 8, 0) && tell(&mount, 7, 40, MG_NO_LABEL, 0) == MG_OK, "the last one");
    check(mg_mount_tell(&mount, NULL, 0, &why) == MG_WRONG_STEP && mg_mount_calls_left(&mount) == 24, "calls come now");
    check(mg_mount_place(&mount, 5, &cell) == MG_OK && cell.block == 3 && cell.page == 1 && mg_mount_place(&mount, 5, NULL) == MG_NULL_POINTER,
          "a page may be read");
    check(mg_mount_place(&mount, 6, &cell) == MG_OK && cell.block == MG_NOWHERE, "one that lies nowhere");
    erase(&mount, 0);
    check(mg_mount_calls_left(&mount) == 17 && mg_mount_end(&mount, names, 6, &die) == MG_WRONG_STEP, "it hasn't ended");
    erase(&mount, 1);
    erase(&mount, 2);
    check(needs(&mount, MG_STEP_END, 0, 0) && mg_mount_done(&mount) == MG_WRONG_STEP && mg_mount_calls_left(&mount) == 0, "the end");
    check(mg_mount_end(&mount, names, 6, NULL) == MG_EMPTY_HANDLE && mg_mount_end(&mount, NULL, 6, &die) == MG_NULL_POINTER, "where to");
    left = 3;
    check(mg_mount_end(&mount, names, 6, &die) == MG_NO_MEMORY && !die.at && needs(&mount, MG_STEP_END, 0, 0), "it may be asked again");
    left = UINT32_MAX;
    check(mg_mount_end(&mount, names, 6, &die) == MG_OK && mg_mount_end(&mount, names, 6, &die) == MG_FULL_HANDLE, "a die");
    check(mg_mount_next(&mount, &step) == MG_WRONG_STEP && mg_mount_done(&mount) == MG_WRONG_STEP, "and no other one");
    mg_mount_free(&mount);
    of_no_mount(&mount);
    check(mg_part_block(&die, 0, &block) == MG_OK && block == 8 && mg_part_block(&die, 3, &block) == MG_OK && block == 3
          && mg_part_block(&die, 3, NULL) == MG_NULL_POINTER, "its blocks on the part");
    check(mg_place(&die, 5, &cell) == MG_OK && cell.block == 3 && cell.page == 1, "the page lies where it did");
    check(mg_place(&die, 7, &cell) == MG_OK && cell.block == 0 && cell.page == 0, "and one in the last block has the number of that aside");
    check(mg_serial(&die) == 42 && mg_submit(&die, 1, 0, 0, 9, &write, 1, NULL, NULL) == MG_OK && mg_begin(&die, 9, &call) == MG_OK, "a write");
    check(call.kind == MG_CALL_PROGRAM && call.block == 1 && call.page == 0 && call.logical == 2 && mg_serial(&die) == 42, "its program");
    check(mg_end(&die, 1, &call.name, &reply, NULL, 0) == MG_OK && mg_serial(&die) == 43, "the next one's serial");
    const struct mg_op read = {MG_READ, 5, {{0}}};
    check(mg_submit(&die, 1, 0, 1, 9, &read, 1, NULL, NULL) == MG_OK && mg_begin(&die, 9, &call) == MG_OK && call.block == 3
          && call.name.bytes[0] == 171 && mg_end(&die, 1, &call.name, &reply, NULL, 0) == MG_OK && mg_serial(&die) == 43, "the page, by its name");
    check(mg_renew(&die, NULL) == MG_OK && mg_serial(&die) == 43, "serials go on");
    mg_free(&die);
    check(mg_new(&die, &plan, &task, 1) == MG_OK && mg_serial(&die) == 1 && mg_part_block(&die, 7, &block) == MG_OK && block == 7, "a fresh die");
    mg_free(&die);
}

/* A page lies in each of the nine blocks: a mount was cut as it copied page 8 from block 0 to block 8, which is undone. */
static void show_undoing(void) {
    mg_mount mount = {0};
    struct mg_cell cell;
    check(mg_mount_new(&mount, &plan, &task, 1) == MG_OK, "new");
    for (int again = 0; again < 2; again++)
        for (uint32_t b = 0; b < 9; b++) {
            check(needs(&mount, MG_STEP_TELL, b, 0), "all blocks, and once more");
            check(tell(&mount, b, b == 8 ? 200 : b, b == 0 ? 8 : MG_NO_LABEL, b == 0 ? 50 : 0) == MG_OK, "a block");
            if (again || b == 8) check(mg_mount_place(&mount, 8, &cell) == MG_OK && cell.block == (again && b == 8 ? 0 : 8), "where page 8 is");
        }
    erase(&mount, 8);
    mg_mount_free(&mount);
}

/* The same part, whose labels tell of erases: 10 of block 3, by the greater of its counts, and 4 of block 8. Each other block counts one
 * more than the greatest, and one more once the mount has erased it. */
static void show_erases(void) {
    static const uint32_t counts[BLOCKS] = {4, 12, 12, 10, 11, 11, 11, 11};
    const struct mg_label third[3] = {{40, 6, 9}, {41, 5, 10}, {0, MG_NO_LABEL, 99}}, eighth = {39, 7, 4};
    const struct mg_op write = {MG_WRITE, 2, {{9}}};
    struct mg_block blocks[BLOCKS];
    struct mg_name names[8] = {{{0}}};
    struct mg_part part = {0, 0};
    struct mg_why why = unsaid;
    struct mg_step step;
    struct mg_call call;
    struct mg_reply reply;
    uint32_t spare;
    mg_mount mount = {0};
    mg_die die = {0};
    for (int worn = 0; worn < 2; worn++) {
        struct mg_label own[3] = {third[0], third[1], third[2]};
        if (worn) own[0].erases = UINT32_MAX;
        check(mg_mount_new(&mount, &plan, &task, 1) == MG_OK, "a mount");
        for (uint32_t b = 0; b < 8; b++)
            check((b == 3 ? mg_mount_tell(&mount, own, 3, NULL) : mg_mount_tell(&mount, NULL, 0, NULL)) == MG_OK, "a block is told");
        uint32_t code = mg_mount_tell(&mount, &eighth, 1, &why);
        if (!worn) {
            check(code == MG_OK && says(&why, unsaid.first, unsaid.second), "the last one");
            while (mg_mount_next(&mount, &step) == MG_OK && step.kind == MG_STEP_ERASE) check(mg_mount_done(&mount) == MG_OK, "an erase");
            check(step.kind == MG_STEP_END && step.erases == 0 && mg_mount_end(&mount, names, 8, &die) == MG_OK, "a die");
        } else
            check(code == MG_WORN_OUT && says(&why, 0, 0) && mg_mount_next(&mount, &step) == MG_WRONG_STEP, "block 0 counts one more than block 3");
        mg_mount_free(&mount);
    }
    check(mg_checkpoint(&die, NULL, 0, NULL, 0, blocks, BLOCKS, NULL, 0, &spare, &part, NULL) == MG_OK && part.aside == 0 && part.serial == 42,
          "what stands");
    for (uint32_t b = 0; b < BLOCKS; b++) check(blocks[b].erases == counts[b], "how often a block was erased");
    check(mg_submit(&die, 1, 0, 0, 9, &write, 1, NULL, NULL) == MG_OK && mg_begin(&die, 9, &call) == MG_OK && call.kind == MG_CALL_PROGRAM
          && call.block == 1 && call.erases == 12 && mg_end(&die, 1, &call.name, &reply, NULL, 0) == MG_OK, "what a label bears");
    check(mg_begin(&die, 9, &call) == MG_OK && call.kind == MG_CALL_NONE && call.erases == 0, "an idle slot");
    mg_free(&die);
}

/* A mount that copies: one page lies in each block but the first, and the program of a copy has the erases of the block that was erased. */
static void show_copied_erases(void) {
    struct mg_step step;
    mg_mount mount = {0};
    check(mg_mount_new(&mount, &plan, &task, 1) == MG_OK, "a mount");
    for (uint32_t b = 0; b < 9; b++) {
        const struct mg_label label = {b, b, 20 + b};
        check(mg_mount_tell(&mount, &label, b > 0, NULL) == MG_OK, "a block is told");
    }
    erase(&mount, 0);
    check(mg_mount_next(&mount, &step) == MG_OK && step.kind == MG_STEP_READ && step.block == 1 && mg_mount_done(&mount) == MG_OK, "a copy's read");
    check(mg_mount_next(&mount, &step) == MG_OK && step.kind == MG_STEP_PROGRAM && step.block == 0 && step.logical == 1 && step.serial == 9
          && step.erases == 30, "29 of a block without a label, and one more");
    mg_mount_free(&mount);
}

static struct mg_part known;

/* Makes a die that wrote page 3, writes it down and frees it. */
static uint32_t written_down(struct mg_cell *places, struct mg_name *names, struct mg_block *blocks, uint32_t *balance) {
    const struct mg_op write = {MG_WRITE, 3, {{7}}};
    struct mg_call call;
    struct mg_reply reply;
    uint32_t spare;
    mg_die die = {0};
    check(mg_new(&die, &plan, &task, 1) == MG_OK && mg_checkpoint_void(&die) == MG_OK, "no checkpoint stands of a new die");
    check(mg_submit(&die, 1, 0, 0, 9, &write, 1, NULL, NULL) == MG_OK && mg_begin(&die, 9, &call) == MG_OK && call.erases == 0
          && mg_end(&die, 1, &call.name, &reply, NULL, 0) == MG_OK, "a write");
    check(mg_checkpoint(&die, places, LOGICAL, names, LOGICAL, blocks, BLOCKS, balance, 1, &spare, &known, NULL) == MG_OK
          && known.serial == 2 && known.aside == BLOCKS, "the next serial, and the last block");
    mg_free(&die);
    return spare;
}

/* A die that was resumed begins no slot that would spend its checkpoint, until that is void: a program, an erase, a trim. */
static void show_void(void) {
    struct mg_cell places[LOGICAL], cell;
    struct mg_name names[LOGICAL];
    struct mg_block blocks[BLOCKS];
    struct mg_call call;
    struct mg_reply reply;
    uint32_t balance, block, spare = written_down(places, names, blocks, &balance);
    const struct mg_op spends[2] = {{MG_WRITE, 2, {{9}}}, {MG_TRIM, 3, {{0}}}}, read = {MG_READ, 3, {{0}}};
    const struct mg_part moved = {77, 3};
    mg_die die = {0};
    for (int kind = 0; kind < 2; kind++) {
        check(mg_resume(&die, &plan, &task, 1, places, LOGICAL, names, LOGICAL, blocks, BLOCKS, &balance, 1, spare, &moved, NULL) == MG_OK
              && mg_serial(&die) == 77 && mg_part_block(&die, 3, &block) == MG_OK && block == 8, "it has the part that it is given");
        check(mg_submit(&die, 1, 0, 0, 2, &read, 1, NULL, NULL) == MG_OK && mg_submit(&die, 1, 0, 2, 9, &spends[kind], 1, NULL, NULL) == MG_OK, "two");
        check(mg_begin(&die, 9, &call) == MG_OK && call.kind == MG_CALL_READ && mg_end(&die, 1, &call.name, &reply, NULL, 0) == MG_OK
              && mg_begin(&die, 9, &call) == MG_OK && call.kind == MG_CALL_NONE && mg_end(&die, 1, &call.name, &reply, NULL, 0) == MG_OK, "a read, and an idle slot");
        call.kind = 99;
        for (int again = 0; again < 2; again++)
            check(mg_begin(&die, 9, &call) == MG_CHECKPOINT_STANDS && call.kind == 99 && mg_now(&die) == 2
                  && mg_end(&die, 1, &call.name, &reply, NULL, 0) == MG_NOT_BEGUN, "the checkpoint stands");
        struct mg_part part;
        uint32_t spare_now;
        check(mg_checkpoint(&die, NULL, 0, NULL, 0, NULL, 0, NULL, 0, &spare_now, &part, NULL) == MG_NOT_QUIET, "work waits");
        check(mg_checkpoint_void(&die) == MG_OK && mg_checkpoint_void(&die) == MG_OK, "it is void");
        check(mg_begin(&die, 9, &call) == MG_OK && call.kind == (kind ? MG_CALL_TRIM : MG_CALL_PROGRAM)
              && mg_end(&die, 1, &call.name, &reply, NULL, 0) == MG_OK && mg_serial(&die) == (kind ? 77 : 78), "the slot");
        check(mg_checkpoint(&die, NULL, 0, NULL, 0, NULL, 0, NULL, 0, &spare_now, &part, NULL) == MG_OK && part.aside == 3
              && part.serial == (kind ? 77 : 78), "the next checkpoint");
        check(mg_place(&die, 3, &cell) == MG_OK && (cell.block == MG_NOWHERE) == kind, "page 3");
        mg_free(&die);
    }
    check(mg_resume(&die, &plan, &task, 1, places, LOGICAL, names, LOGICAL, blocks, BLOCKS, &balance, 1, spare, NULL, NULL) == MG_OK
          && mg_serial(&die) == 1 && mg_part_block(&die, 7, &block) == MG_OK && block == 7, "a part without labels");
    mg_free(&die);
}

static void show_texts(void) {
    uint32_t texts = 0;
    for (uint32_t code = 0; code < 600; code++) {
        char name[17];
        uint32_t length = mg_refusal_name(code, name, sizeof name);
        check(length <= 16 && strlen(name) == length, "a name");
        if (strcmp(mg_refusal_text(code), mg_refusal_text(UINT32_MAX))) {
            check(strcmp(name, "Unknown") != 0, "what has a text has a name");
            texts++;
        }
    }
    check(MG_FITS(mg_version()) && !MG_FITS(mg_version() + 0x10000), "a library of this version");
    printf("%" PRIu32 " refusals have a text\n", texts);
}

/* A report goes to the file that is named, if one is: .ci/bindings has it audited. */
static int put(void *to, const char *text, size_t size) { return fwrite(text, 1, size, to) != size; }

static int refuse(void *to, const char *text, size_t size) {
    ++*(int *)to;
    return text[0] != 'r' || size != 1024;
}

static void show_report(const char *path) {
    mg_die dies[2] = {{0}, {0}};
    const mg_die *of[2] = {&dies[0], &dies[1]};
    int pieces = 0;
    for (int d = 0; d < 2; d++) check(mg_new(&dies[d], &plan, &task, 1) == MG_OK, "new");
    for (uint32_t r = 0; r < 40; r++) {
        const uint32_t now = mg_now(&dies[0]), page = r * 7 % LOGICAL;
        const struct mg_op ops[3] = {{MG_WRITE, page, {{(uint8_t)r, 171}}}, {MG_READ, page, {{0}}}, {MG_READ, 15, {{0}}}};
        struct mg_reply reply;
        mg_collect(&dies[0], 1, 0, now, now + 40, NULL, NULL);
        check(mg_submit(&dies[0], 1, 0, now, now + 2 + r % 3, ops, 3, NULL, NULL) == MG_OK, "submit");
        do {
            struct mg_call call;
            check(mg_begin(&dies[0], 9, &call) == MG_OK && mg_end(&dies[0], 1, &call.name, &reply, NULL, 0) == MG_OK, "a slot");
        } while (reply.act != MG_IDLE && r < 39);
    }
    FILE *file = path ? fopen(path, "wb") : tmpfile();
    check(file && mg_report(of, 2, put, file) == MG_OK && ftell(file) > 1024 && !fclose(file), "a report");
    check(mg_report(of, 2, refuse, &pieces) == MG_NOT_TAKEN && pieces == 2, "a piece that isn't taken is the last");
    check(mg_report(of, 2, NULL, NULL) == MG_NULL_POINTER && mg_report(NULL, 2, put, NULL) == MG_NULL_POINTER, "none to take it");
    left = 0;
    check(mg_report(of, 2, refuse, &pieces) == MG_NO_MEMORY, "no memory");
    left = UINT32_MAX;
    mg_free(&dies[1]);
    check(mg_report(of, 2, refuse, &pieces) != MG_OK, "a die that isn't there");
    mg_free(&dies[0]);
    check(mg_report(of, 1, refuse, &pieces) == MG_EMPTY_HANDLE, "nor this one");
}

/* A die that keeps its plan: handles and pointers, causes in their order, and lives in which it asks the heap for nothing. */
static void show_planned(void) {
    const struct mg_plan plan = {8, 4, 3, 12, 2, 0};
    const struct mg_task task = {6, 0, 0, 0, 0};
    const struct mg_terms terms = {20, 10, 10, 70, 1, 20, 20}, small = {20, 10, 10, 2, 1, 20, 20};
    const struct mg_op write = {MG_WRITE, 5, {{7}}}, read = {MG_READ, 5, {{0}}}, bad = {3, 5, {{0}}}, beyond = {MG_READ, 12, {{0}}};
    struct mg_op many[3];
    struct mg_unasked why = {77, 78};
    struct mg_taken taken;
    struct mg_call call;
    struct mg_reply reply;
    struct mg_waived waived[1];
    struct mg_life life;
    struct mg_job_head head;
    struct mg_job_outcome outcome;
    struct mg_cell cell;
    struct mg_name names[4], blank;
    uint32_t operations = 5;
    mg_planned die = {0};
    for (int i = 0; i < 3; i++) many[i] = read;
    memset(&blank, 255, sizeof blank);
    mg_planned_free(NULL);
    mg_planned_free(&die);
    check(mg_planned_ask(&die, 1, 0, &write, 1, &taken, &why) == MG_EMPTY_HANDLE && why.next == 0 && why.number == 0, "no die to ask");
    check(mg_planned_ask_all(NULL, 1, 0, &write, 1, &taken, NULL) == MG_EMPTY_HANDLE && mg_planned_begin(&die, 1, &call) == MG_EMPTY_HANDLE
          && mg_planned_end(&die, 1, &blank, &reply, NULL, 0) == MG_EMPTY_HANDLE && mg_planned_clock(&die) == 0
          && mg_planned_life(&die, &life) == MG_EMPTY_HANDLE && mg_planned_waiting(&die, 0, &operations) == MG_EMPTY_HANDLE
          && mg_planned_job(&die, 0, &head) == MG_EMPTY_HANDLE && mg_planned_outcome(&die, 0, &outcome, NULL, 0) == MG_EMPTY_HANDLE
          && mg_planned_place(&die, 0, &cell) == MG_EMPTY_HANDLE && operations == 5, "of no die");
    check(mg_planned_new(NULL, &plan, &task, &small, 1, 100, &why) == MG_EMPTY_HANDLE
          && mg_planned_new(&die, &plan, &task, NULL, 1, 100, &why) == MG_NULL_POINTER, "what a die is made of");
    check(mg_planned_new(&die, &plan, &task, &terms, 1, 100, &why) == MG_TOO_MUCH_DEMAND, "70 operations in 10 slots");
    check(mg_planned_new(&die, &plan, &task, &small, 1, 0, &why) == MG_NO_LIFE && mg_planned_new(&die, &plan, NULL, NULL, 0, 9, &why) == MG_BAD_PLAN,
          "no life, and no task");
    struct mg_terms none = small;
    none.work = 0;
    check(mg_planned_new(&die, &plan, &task, &none, 1, 100, &why) == MG_BAD_TERMS, "terms out of their limits");
    struct mg_task poor = {4, 0, 0, 0, 0};
    check(mg_planned_new(&die, &plan, &poor, &small, 1, 100, &why) == MG_TOO_FEW_PAGES && die.at == NULL, "a cap that doesn't do");
    check(mg_planned_new(&die, &plan, &task, &small, 1, 100, NULL) == MG_OK && mg_planned_new(&die, &plan, &task, &small, 1, 100, &why) == MG_FULL_HANDLE,
          "a die isn't lost");
    check(mg_planned_life(&die, &life) == MG_OK && life.first == 0 && life.slots == 100 && life.now == 0, "the longest life that is allowed");
    left = 0; /* it asks the heap for nothing from here on */
    check(mg_planned_ask(&die, 1, 0, &bad, 1, &taken, &why) == MG_BAD_KIND && mg_planned_ask(&die, 1, 1, NULL, 0, &taken, &why) == MG_UNKNOWN_TASK
          && mg_planned_ask(&die, 1, 0, NULL, 0, &taken, &why) == MG_EMPTY_JOB, "kinds, tasks and empty jobs");
    check(mg_planned_ask(&die, 1, 0, many, 3, &taken, &why) == MG_TOO_MANY_OPS && why.number == 2
          && mg_planned_ask(&die, 1, 0, &beyond, 1, &taken, &why) == MG_BAD_PAGE && why.number == 12, "too many, and a page that isn't there");
    check(mg_planned_ask(&die, 1, 0, NULL, 1, &taken, &why) == MG_NULL_POINTER && mg_planned_ask(&die, 1, 0, &write, 1, NULL, &why) == MG_NULL_POINTER,
          "pointers of an ask");
    uint32_t waits = 0, jobs = 0;
    uint64_t due = 0;
    for (uint32_t clock = 0; clock < 500; clock++) {
        /* from slot 15 on, so that what the task asks for next comes near the end of each life */
        uint32_t asked = clock < 15 ? MG_TOO_SOON : mg_planned_ask(&die, 1, 0, clock % 20 == 15 ? &write : &read, 1, &taken, &why);
        if (clock < 15) why.next = 1;
        if (asked == MG_OK) {
            jobs += taken.jobs, waits += taken.waits, due = taken.due;
            check(taken.release >= clock && taken.due == taken.release + 10, "release and due");
        } else check(asked == MG_TOO_SOON ? why.next > 0 : asked == MG_WAITS_ALREADY, "what its task did");
        check(mg_planned_end(&die, 1, &blank, &reply, waived, 1) == MG_NOT_BEGUN, "no slot has begun");
        check(mg_planned_begin(&die, 9, NULL) == MG_NULL_POINTER && mg_planned_begin(&die, 9, &call) == MG_OK, "a slot");
        check(mg_planned_begin(&die, 9, &call) == MG_BEGUN && mg_planned_ask_all(&die, 1, 0, &read, 1, &taken, &why) == MG_BEGUN
              && why.next == 0 && why.number == 0 && mg_planned_clock(&die) == clock, "a slot has begun");
        check(mg_planned_end(&die, 1, call.kind == MG_CALL_READ ? &call.name : &blank, &reply, waived, 1) == MG_OK && reply.caller == 9, "its end");
        check(mg_planned_clock(&die) == clock + 1, "the clock of all lives");
    }
    left = UINT32_MAX;
    check(jobs > 20 && waits > 0 && due > 450, "over five lives");
    check(mg_planned_life(&die, &life) == MG_OK && life.first == 400 && life.now == 100, "the fifth has ended");
    check(mg_planned_job(&die, 0, &head) == MG_OK && mg_planned_outcome(&die, 0, &outcome, names, 4) == MG_OK && outcome.lateness <= 0, "a job of it");
    check(mg_planned_job(&die, 60000, &head) == MG_UNKNOWN_JOB && mg_planned_place(&die, 5, &cell) == MG_OK && cell.block != MG_NOWHERE, "questions");
    /* a failed call stops the die */
    for (call.kind = MG_CALL_NONE; call.kind != MG_CALL_PROGRAM;) {
        uint32_t asked = mg_planned_ask_all(&die, 1, 0, &write, 1, &taken, &why);
        check(asked == MG_OK || asked == MG_TOO_SOON || asked == MG_WAITS_ALREADY, "asks up to a program");
        check(mg_planned_begin(&die, 9, &call) == MG_OK && mg_planned_clock(&die) < 600, "slots up to a program");
        if (call.kind != MG_CALL_PROGRAM)
            check(mg_planned_end(&die, 1, call.kind == MG_CALL_READ ? &call.name : &blank, &reply, waived, 1) == MG_OK, "their ends");
    }
    check(mg_planned_waiting(&die, 0, &operations) == MG_OK && operations <= 1 && mg_planned_life(&die, &life) == MG_OK && life.first == 500,
          "the sixth life");
    check(mg_planned_end(&die, 0, &blank, &reply, waived, 1) == MG_DEVICE_FAULT && mg_planned_end(&die, 1, &blank, &reply, waived, 1) == MG_DIE_STOPPED
          && mg_planned_begin(&die, 9, &call) == MG_DIE_STOPPED && mg_planned_ask(&die, 1, 0, &read, 1, &taken, &why) == MG_DIE_STOPPED,
          "a fault stops it");
    check(mg_planned_place(&die, 5, &cell) == MG_OK && cell.block != MG_NOWHERE, "its pages are found");
    mg_planned_free(&die);
    check(die.at == NULL, "it is freed");
    /* each allocation of its birth refused in turn */
    uint32_t tries = 0;
    for (uint32_t code = MG_NO_MEMORY; code == MG_NO_MEMORY; tries++) {
        left = tries;
        code = mg_planned_new(&die, &plan, &task, &small, 1, 100, &why);
        left = UINT32_MAX;
        check(code == MG_NO_MEMORY ? !die.at : die.at != NULL, "no memory, no die");
    }
    check(tries > 5, "it takes memory");
    mg_planned_free(&die);
}

static int tells(const struct mg_unresumed *why, uint32_t first, uint32_t second, uint32_t third) {
    return why->first == first && why->second == second && why->third == third;
}

enum { OF_PLANNED = 12 }; /* its logical pages */
struct written { struct mg_cell places[OF_PLANNED]; struct mg_name names[OF_PLANNED]; struct mg_block blocks[8]; uint32_t balances[1], spare; struct mg_part part; };

static uint32_t write_down(mg_planned *die, struct written *to, struct mg_why *why) {
    return mg_planned_checkpoint(die, to->places, OF_PLANNED, to->names, OF_PLANNED, to->blocks, 8, to->balances, 1, &to->spare, &to->part, why);
}

static uint32_t go_on(mg_planned *die, const struct mg_terms *terms, uint32_t longest, const struct written *from, struct mg_unresumed *why) {
    static const struct mg_plan own = {8, 4, 3, OF_PLANNED, 2, 0};
    static const struct mg_task cap = {6, 0, 0, 0, 0};
    return mg_planned_resume(die, &own, &cap, terms, 1, longest, from->places, OF_PLANNED, from->names, OF_PLANNED, from->blocks, 8,
                             from->balances, 1, from->spare, &from->part, why);
}

/* Slots of a die that keeps its plan, on a chip that does what it is asked. */
static void carry_slots(mg_planned *die, uint32_t slots) {
    struct mg_call call;
    struct mg_reply reply;
    struct mg_waived waived[1];
    struct mg_name blank;
    memset(&blank, 255, sizeof blank);
    while (slots-- > 0)
        check(mg_planned_begin(die, 9, &call) == MG_OK
              && mg_planned_end(die, 1, call.kind == MG_CALL_READ ? &call.name : &blank, &reply, waived, 1) == MG_OK, "a slot");
}

/* A die that keeps its plan is written down, and goes on from there: pointers, and causes in their order. */
static void show_planned_shutdown(void) {
    const struct mg_plan own = {8, 4, 3, OF_PLANNED, 2, 0};
    const struct mg_task cap = {6, 0, 0, 0, 0};
    const struct mg_terms terms = {20, 10, 10, 2, 1, 20, 20};
    const struct mg_op write = {MG_WRITE, 5, {{7}}};
    struct mg_why why = unsaid;
    struct mg_unresumed un = {7, 8, 9};
    struct mg_taken taken;
    struct mg_call call;
    struct mg_life life;
    struct mg_cell cell;
    static struct written at, broken;
    uint32_t block = 99;
    mg_planned die = {0};
    check(write_down(&die, &at, &why) == MG_EMPTY_HANDLE && says(&why, 0, 0) && write_down(NULL, &at, NULL) == MG_EMPTY_HANDLE
          && go_on(NULL, &terms, 100, &at, &un) == MG_EMPTY_HANDLE && tells(&un, 0, 0, 0) && mg_planned_serial(&die) == 0
          && mg_planned_serial(NULL) == 0 && mg_planned_checkpoint_void(&die) == MG_EMPTY_HANDLE && mg_planned_checkpoint_void(NULL) == MG_EMPTY_HANDLE && mg_planned_part_block(&die, 0, &block) == MG_EMPTY_HANDLE && block == 99, "of no die");
    check(mg_planned_new(&die, &own, &cap, &terms, 1, 100, NULL) == MG_OK, "a die");
    check(mg_planned_checkpoint(&die, NULL, OF_PLANNED, NULL, 0, NULL, 0, NULL, 0, &at.spare, NULL, &why) == MG_NULL_POINTER
          && mg_planned_checkpoint(&die, NULL, 0, NULL, 0, NULL, 0, NULL, 0, NULL, NULL, NULL) == MG_NULL_POINTER
          && mg_planned_checkpoint(&die, NULL, 0, NULL, 0, NULL, 0, NULL, 0, &at.spare, NULL, NULL) == MG_OK && at.spare == 24,
          "an array of none");
    check(mg_planned_serial(&die) == 1 && mg_planned_part_block(&die, 7, &block) == MG_OK && block == 7
          && mg_planned_part_block(&die, 7, NULL) == MG_NULL_POINTER, "its part");
    check(mg_planned_begin(&die, 9, &call) == MG_OK && write_down(&die, &at, &why) == MG_BEGUN && says(&why, 0, 0), "within a slot");
    check(mg_planned_end(&die, 1, &call.name, &(struct mg_reply){0}, &(struct mg_waived){0, 0}, 1) == MG_OK, "its end");
    check(mg_planned_ask(&die, 1, 0, &write, 1, &taken, NULL) == MG_OK, "a write");
    why = unsaid;
    check(write_down(&die, &at, &why) == MG_NOT_QUIET && says(&why, taken.first, 0), "work waits");
    carry_slots(&die, 1);
    check(mg_planned_serial(&die) == 2, "a program");
    uint32_t tries = 0;
    for (uint32_t code = MG_NO_MEMORY; code == MG_NO_MEMORY; tries++) {
        left = tries;
        code = write_down(&die, &at, &why);
        left = UINT32_MAX;
    }
    check(tries > 4 && at.places[5].block == 0 && at.places[5].page == 0 && at.places[4].block == MG_NOWHERE && at.names[5].bytes[0] == 7
          && at.blocks[0].filled == 1 && at.balances[0] == 5, "what stands");
    carry_slots(&die, 93);
    check(mg_planned_ask(&die, 1, 0, &write, 1, &taken, NULL) == MG_OK && taken.waits == 1, "an ask that waits");
    broken = at;
    check(write_down(&die, &broken, &why) == MG_ASK_WAITS && says(&why, 0, 0) && !memcmp(&at, &broken, sizeof at), "it would be lost");
    mg_planned other = {0};
    check(go_on(&die, &terms, 100, &at, &un) == MG_FULL_HANDLE && tells(&un, 0, 0, 0), "a die isn't lost");
    un.first = 7;
    check(mg_planned_resume(&other, NULL, &cap, &terms, 1, 100, NULL, 0, NULL, 0, NULL, 0, NULL, 0, 0, NULL, &un) == MG_NULL_POINTER
          && tells(&un, 0, 0, 0)
          && mg_planned_resume(&other, &own, &cap, NULL, 1, 100, NULL, 0, NULL, 0, NULL, 0, NULL, 0, 0, NULL, NULL) == MG_NULL_POINTER
          && mg_planned_resume(&other, &own, &cap, &terms, 1, 100, NULL, 1, NULL, 0, NULL, 0, NULL, 0, 0, NULL, NULL) == MG_NULL_POINTER
          && mg_planned_resume(&other, &own, &cap, &terms, 1, 100, NULL, 0, NULL, 0, NULL, 0, NULL, 0, 0, NULL, NULL) == MG_OTHER_SHAPE,
          "what it goes on from");
    broken = at;
    broken.spare++;
    check(go_on(&other, &terms, 100, &broken, &un) == MG_OTHER_SUM && tells(&un, 32, 31, 0), "accounts of more pages than are free");
    broken = at;
    broken.places[4] = at.places[5];
    check(go_on(&other, &terms, 100, &broken, &un) == MG_SHARED_CELL && tells(&un, 5, 0, 0), "two pages in a cell");
    struct mg_terms others = terms;
    others.work = 0;
    check(go_on(&other, &others, 100, &at, &un) == MG_BAD_TERMS && tells(&un, 0, 0, 0), "terms out of their limits");
    others.work = 70;
    check(go_on(&other, &others, 100, &at, &un) == MG_TOO_MUCH_DEMAND, "70 operations in 10 slots");
    check(go_on(&other, &terms, 19, &at, &un) == MG_NO_LIFE, "a collection would be due after it");
    broken = at;
    broken.balances[0] = 2, broken.spare += 3;
    check(go_on(&other, &terms, 19, &broken, &un) == MG_NO_LIFE && go_on(&other, &terms, 100, &broken, &un) == MG_NOT_STOCKED && tells(&un, 0, 2, 3),
          "a task with too few pages");
    others = terms;
    others.collect_period = 9, others.collect_deadline = 9;
    check(go_on(&other, &others, 9, &at, &un) == MG_SHORT_LIFE && tells(&un, 0, 0, 0), "a life shorter than a deadline");
    for (tries = 0;; tries++) {
        left = tries;
        uint32_t code = go_on(&other, &terms, 60, &at, &un);
        left = UINT32_MAX;
        if (code == MG_OK) break;
        check(code == MG_NO_MEMORY && tells(&un, 0, 0, 0) && !other.at, "no memory, no die");
    }
    check(tries > 10 && mg_planned_life(&other, &life) == MG_OK && life.first == 0 && life.slots == 60 && life.now == 0, "another length of lives");
    check(at.part.serial == 2 && at.part.aside == 8 && mg_planned_clock(&other) == 0 && mg_planned_serial(&other) == 2
          && mg_planned_place(&other, 5, &cell) == MG_OK && cell.block == 0, "it goes on");
    left = 0; /* it asks the heap for nothing from here on */
    check(mg_planned_begin(&other, 9, &call) == MG_CHECKPOINT_STANDS && mg_planned_clock(&other) == 0, "its checkpoint stands");
    check(mg_planned_checkpoint_void(&other) == MG_OK && mg_planned_checkpoint_void(&other) == MG_OK, "and is void");
    check(mg_planned_ask(&other, 1, 0, &write, 1, &taken, NULL) == MG_OK && taken.due == 10, "it takes asks");
    carry_slots(&other, 500);
    left = UINT32_MAX;
    check(mg_planned_clock(&other) == 500 && mg_planned_serial(&other) > 1, "over lives");
    mg_planned_free(&other);
    mg_planned_free(&die);
}

/* A mount ends in a die that keeps its plan. */
static void show_planned_mount(void) {
    const struct mg_plan own = {8, 4, 3, OF_PLANNED, 2, 0};
    const struct mg_task cap = {6, 0, 0, 0, 0};
    const struct mg_terms terms[2] = {{20, 10, 10, 2, 1, 20, 20}, {20, 10, 10, 2, 1, 20, 20}};
    const struct mg_op read = {MG_READ, 5, {{0}}}, write = {MG_WRITE, 2, {{9}}};
    struct mg_unresumed why = {7, 8, 9};
    struct mg_name names[6] = {{{0}}};
    struct mg_cell cell;
    struct mg_life life;
    struct mg_call call;
    struct mg_reply reply;
    struct mg_waived waived[1];
    struct mg_taken taken;
    uint32_t block;
    mg_mount mount = {0};
    mg_planned die = {0};
    names[5].bytes[0] = 171;
    check(mg_mount_end_planned(&mount, terms, 1, 100, names, 6, &die, &why) == MG_EMPTY_HANDLE && tells(&why, 0, 0, 0)
          && mg_mount_end_planned(NULL, terms, 1, 100, names, 6, &die, NULL) == MG_EMPTY_HANDLE, "of no mount");
    check(mg_mount_new(&mount, &own, &cap, 1) == MG_OK, "a mount");
    why.first = 7;
    check(mg_mount_end_planned(&mount, terms, 1, 100, names, 6, &die, &why) == MG_WRONG_STEP && tells(&why, 0, 0, 0) && !die.at, "it hasn't ended");
    for (uint32_t b = 0; b < 9; b++)
        check((b == 8 ? tell(&mount, MG_NO_LABEL, 0, 5, 41) : mg_mount_tell(&mount, NULL, 0, NULL)) == MG_OK, "a block is told");
    struct mg_step step;
    while (mg_mount_next(&mount, &step) == MG_OK && step.kind == MG_STEP_ERASE) check(mg_mount_done(&mount) == MG_OK, "a slot of an erase");
    check(step.kind == MG_STEP_END, "its end");
    check(mg_mount_end_planned(&mount, terms, 1, 100, names, 6, NULL, &why) == MG_EMPTY_HANDLE
          && mg_mount_end_planned(&mount, NULL, 1, 100, names, 6, &die, &why) == MG_NULL_POINTER
          && mg_mount_end_planned(&mount, terms, 1, 100, NULL, 6, &die, NULL) == MG_NULL_POINTER, "where to, and with what");
    check(mg_mount_end_planned(&mount, terms, 2, 100, names, 6, &die, &why) == MG_BAD_TERMS && mg_mount_end_planned(&mount, NULL, 0, 100, names, 6, &die, &why) == MG_BAD_TERMS
          && mg_mount_end_planned(&mount, terms, 1, 19, names, 6, &die, &why) == MG_NO_LIFE && tells(&why, 0, 0, 0), "terms of another number of tasks, and no life");
    struct mg_terms others = terms[0];
    others.collect_period = 9, others.collect_deadline = 9;
    check(mg_mount_end_planned(&mount, &others, 1, 9, names, 6, &die, &why) == MG_SHORT_LIFE && !die.at, "a life shorter than a deadline");
    uint32_t tries = 0;
    for (;; tries++) {
        left = tries;
        uint32_t code = mg_mount_end_planned(&mount, terms, 1, 100, names, 6, &die, &why);
        left = UINT32_MAX;
        if (code == MG_OK) break;
        check(code == MG_NO_MEMORY && tells(&why, 0, 0, 0) && !die.at && mg_mount_next(&mount, &step) == MG_OK, "it may be asked again");
    }
    check(tries > 10 && mg_mount_end_planned(&mount, terms, 1, 100, names, 6, &die, &why) == MG_FULL_HANDLE, "a die isn't lost");
    mg_planned second = {0};
    check(mg_mount_next(&mount, &step) == MG_WRONG_STEP && mg_mount_end_planned(&mount, terms, 1, 100, names, 6, &second, &why) == MG_WRONG_STEP, "and no other one");
    mg_mount_free(&mount);
    check(mg_planned_serial(&die) == 42 && mg_planned_part_block(&die, 0, &block) == MG_OK && block == 8 && mg_planned_life(&die, &life) == MG_OK
          && life.slots == 100 && life.now == 0, "its part, and its life");
    check(mg_planned_place(&die, 5, &cell) == MG_OK && cell.block == 0 && cell.page == 1, "the page lies in the block of the one aside");
    left = 0;
    check(mg_planned_ask(&die, 1, 0, &read, 1, &taken, NULL) == MG_OK && mg_planned_ask(&die, 1, 0, &write, 1, &taken, NULL) == MG_OK, "all of a period at once");
    check(mg_planned_begin(&die, 9, &call) == MG_OK && call.kind == MG_CALL_READ && call.name.bytes[0] == 171
          && mg_planned_end(&die, 1, &call.name, &reply, waived, 1) == MG_OK && mg_planned_serial(&die) == 42, "the page, by its name");
    check(mg_planned_begin(&die, 9, &call) == MG_OK && call.kind == MG_CALL_PROGRAM && call.logical == 2 && mg_planned_serial(&die) == 42
          && mg_planned_end(&die, 1, &call.name, &reply, waived, 1) == MG_OK && mg_planned_serial(&die) == 43, "the next one's serial");
    carry_slots(&die, 300);
    left = UINT32_MAX;
    check(mg_planned_serial(&die) >= 43 && mg_planned_life(&die, &life) == MG_OK && life.first == 300, "over lives");
    mg_planned_free(&die);
}

/* What a table needs next. */
static int moves(mg_spares *spares, uint32_t kind, uint32_t block, uint32_t page, uint32_t from) {
    struct mg_move move;
    return mg_spares_next(spares, &move) == MG_OK && move.kind == kind && move.block == block && move.page == page && move.from == from;
}

/* Each call of no table, or with a null pointer. */
static void of_no_table(mg_spares *spares, const struct mg_plan *plan) {
    struct mg_move move = {9, 9, 9, 9};
    uint32_t one = 7, two = 7;
    mg_spares_free(spares);
    check(mg_spares_next(spares, &move) == MG_EMPTY_HANDLE && move.kind == 9 && mg_spares_done(spares, 0) == MG_EMPTY_HANDLE
          && mg_spares_tell(spares, NULL, 0) == MG_EMPTY_HANDLE && mg_spares_left(spares) == 0, "moves of no table");
    check(mg_spares_program_failed(spares, 0, 0) == MG_EMPTY_HANDLE && mg_spares_erase_failed(spares, 0) == MG_EMPTY_HANDLE
          && mg_spares_block(spares, 0, &one) == MG_EMPTY_HANDLE && mg_spares_use(spares, 0, &one, &two) == MG_EMPTY_HANDLE && one == 7 && two == 7,
          "blocks of no table");
    check(mg_spares_new(NULL, plan, 9, NULL, 0) == MG_EMPTY_HANDLE && mg_spares_power_up(NULL, plan, 9, NULL, 0) == MG_EMPTY_HANDLE, "no handle");
}

/* A table of 4 numbers on a part of 8 blocks: 2 is bad, 0, 1, 3 and 4 have the numbers 0 to 3, and 5, 6 and 7 are spare. */
static void show_spares(void) {
    struct mg_plan plan = {3, 4, 3, 6, 2, 0}, large = plan;
    const uint32_t bad[1] = {2}, most[5] = {0, 1, 2, 3, 4};
    mg_spares spares = {0};
    struct mg_move move = {9, 9, 9, 9};
    uint32_t block = 77, use = 77, number = 77;
    of_no_table(NULL, &plan);
    of_no_table(&spares, &plan);
    large.blocks = 1024;
    check(mg_spares_new(&spares, NULL, 8, bad, 1) == MG_NULL_POINTER && mg_spares_new(&spares, &plan, 8, NULL, 1) == MG_NULL_POINTER
          && mg_spares_power_up(&spares, NULL, 8, bad, 1) == MG_NULL_POINTER && mg_spares_power_up(&spares, &plan, 8, NULL, 1) == MG_NULL_POINTER
          && mg_spares_new(&spares, &large, 2000, NULL, 0) == MG_BAD_SHAPE && mg_spares_new(&spares, &plan, 8, most, 5) == MG_BAD_SHAPE
          && mg_spares_power_up(&spares, &large, 2000, NULL, 0) == MG_BAD_SHAPE && mg_spares_power_up(&spares, &plan, 3, NULL, 0) == MG_BAD_SHAPE
          && !spares.at, "no table");
    left = 0;
    uint32_t tried = 0;
    for (;; tried++) {
        left = tried;
        uint32_t code = mg_spares_new(&spares, &plan, 8, bad, 1);
        left = UINT32_MAX;
        if (code == MG_OK) break;
        check(code == MG_NO_MEMORY && !spares.at, "refused for memory");
    }
    check(tried > 2 && mg_spares_new(&spares, &plan, 8, bad, 1) == MG_FULL_HANDLE && mg_spares_power_up(&spares, &plan, 8, bad, 1) == MG_FULL_HANDLE,
          "a table isn't lost");
    left = 0; /* from here on no memory is asked for */
    check(mg_spares_next(&spares, NULL) == MG_NULL_POINTER && mg_spares_block(&spares, 0, NULL) == MG_NULL_POINTER
          && mg_spares_use(&spares, 0, NULL, &number) == MG_NULL_POINTER && mg_spares_use(&spares, 0, &use, NULL) == MG_NULL_POINTER
          && mg_spares_tell(&spares, NULL, 1) == MG_NULL_POINTER && mg_spares_done(&spares, 3) == MG_BAD_KIND, "pointers, and how it was done");
    check(mg_spares_tell(&spares, NULL, 0) == MG_WRONG_STEP && mg_spares_program_failed(&spares, 0, 0) == MG_WRONG_STEP
          && mg_spares_erase_failed(&spares, 0) == MG_WRONG_STEP, "erases come first");
    /* of the erases that of block 1 fails, which has number 1: a spare block has it then, and is erased in its turn */
    for (uint32_t b = 0; b < 8; b++) {
        if (b == 2) continue;
        check(moves(&spares, MG_MOVE_ERASE, b, 0, 0) && mg_spares_done(&spares, b == 1 ? MG_MOVE_FAILED : MG_MOVE_DONE) == MG_OK, "an erase");
    }
    check(moves(&spares, MG_MOVE_NONE, 0, 0, 0) && mg_spares_done(&spares, MG_MOVE_DONE) == MG_WRONG_STEP && mg_spares_left(&spares) == 2, "it is at work");
    check(mg_spares_block(&spares, 1, &block) == MG_OK && block == 5 && mg_spares_block(&spares, 2, &block) == MG_OK && block == 3
          && mg_spares_block(&spares, 4, &block) == MG_NO_BLOCK && block == 3, "blocks by number");
    check(mg_spares_use(&spares, 1, &use, &number) == MG_OK && use == MG_USE_BAD && mg_spares_use(&spares, 2, &use, &number) == MG_OK && use == MG_USE_BAD
          && mg_spares_use(&spares, 6, &use, &number) == MG_OK && use == MG_USE_SPARE && mg_spares_use(&spares, 9, &use, &number) == MG_OK && use == MG_USE_BAD
          && mg_spares_use(&spares, 5, &use, &number) == MG_OK && use == MG_USE_NUMBER && number == 1, "uses");
    check(mg_spares_program_failed(&spares, 4, 0) == MG_NO_BLOCK && mg_spares_program_failed(&spares, 0, 4) == MG_NO_BLOCK
          && mg_spares_erase_failed(&spares, 4) == MG_NO_BLOCK, "no such cell");
    /* page 2 of number 3, which is block 4: block 6 fails as it is filled, and block 7 has the number once all is done */
    check(mg_spares_program_failed(&spares, 3, 2) == MG_OK && moves(&spares, MG_MOVE_COPY, 6, 0, 4) && mg_spares_done(&spares, MG_MOVE_DONE) == MG_OK
          && moves(&spares, MG_MOVE_COPY, 6, 1, 4) && mg_spares_erase_failed(&spares, 0) == MG_WRONG_STEP
          && mg_spares_done(&spares, MG_MOVE_FAILED) == MG_OK && mg_spares_left(&spares) == 1, "the next spare block is tried");
    check(moves(&spares, MG_MOVE_COPY, 7, 0, 4) && mg_spares_done(&spares, MG_MOVE_DONE) == MG_OK && moves(&spares, MG_MOVE_COPY, 7, 1, 4)
          && mg_spares_done(&spares, MG_MOVE_DONE) == MG_OK && moves(&spares, MG_MOVE_PROGRAM, 7, 2, 0)
          && mg_spares_block(&spares, 3, &block) == MG_OK && block == 4 && mg_spares_done(&spares, MG_MOVE_DONE) == MG_OK
          && mg_spares_block(&spares, 3, &block) == MG_OK && block == 7 && mg_spares_left(&spares) == 0, "the table is set at the end");
    check(mg_spares_use(&spares, 4, &use, &number) == MG_OK && use == MG_USE_BAD && mg_spares_erase_failed(&spares, 2) == MG_NO_SPARE
          && mg_spares_next(&spares, &move) == MG_NO_SPARE && move.kind == 9 && mg_spares_erase_failed(&spares, 2) == MG_NO_SPARE
          && mg_spares_program_failed(&spares, 2, 0) == MG_NO_SPARE && mg_spares_done(&spares, MG_MOVE_DONE) == MG_WRONG_STEP
          && mg_spares_block(&spares, 2, &block) == MG_OK && block == 3, "it is worn out, and stays as it was");
    left = UINT32_MAX;
    mg_spares_free(&spares);
    check(!spares.at && mg_spares_new(&spares, &plan, 8, bad, 1) == MG_OK && mg_spares_done(&spares, MG_MOVE_FAULT) == MG_OK
          && mg_spares_next(&spares, &move) == MG_DEVICE_FAULT && mg_spares_program_failed(&spares, 0, 0) == MG_DEVICE_FAULT, "a fault");
    mg_spares_free(&spares);
}

/* A part of 8 blocks whose power has come. Block 3 was filled in the place of block 5, and block 7 is bad. */
static void show_spares_powered(void) {
    struct mg_plan plan = {3, 4, 3, 6, 2, 0};
    const uint32_t bad[1] = {7};
    const struct mg_label many[5] = {{0, MG_NO_LABEL, 0}}, whole[3] = {{11, 0, 7}, {12, 1, 7}, {13, 2, 7}}, other[1] = {{9, 4, 0}};
    mg_spares spares = {0};
    uint32_t block = 77, use = 77, number = 77;
    check(mg_spares_power_up(&spares, &plan, 8, bad, 1) == MG_OK, "a scan");
    check(mg_spares_block(&spares, 0, &block) == MG_WRONG_STEP && mg_spares_use(&spares, 0, &use, &number) == MG_WRONG_STEP && block == 77 && use == 77
          && mg_spares_left(&spares) == 0 && mg_spares_done(&spares, MG_MOVE_DONE) == MG_WRONG_STEP
          && mg_spares_program_failed(&spares, 0, 0) == MG_WRONG_STEP && mg_spares_erase_failed(&spares, 0) == MG_WRONG_STEP, "blocks come first");
    check(mg_spares_tell(&spares, many, 5) == MG_TOO_MANY_CELLS, "too many cells");
    for (uint32_t b = 0; b < 8; b++) {
        check(moves(&spares, MG_MOVE_TELL, b, 0, 0), "a block is told");
        left = 0;
        if (b == 0) check(mg_spares_tell(&spares, whole, 3) == MG_NO_MEMORY && moves(&spares, MG_MOVE_TELL, 0, 0, 0), "it may be told again");
        left = UINT32_MAX;
        /* 3 has less of 5; 7 isn't looked at; the others but 0 are blank */
        check(mg_spares_tell(&spares, b == 0 ? other : whole, b == 0 ? 1 : b == 3 ? 2 : b == 5 || b == 7 ? 3 : 0) == MG_OK, "a block is told");
    }
    /* 0 and 5 have labels; of 1, 2, 4 and 6, which are blank, the first two have numbers, too */
    check(mg_spares_block(&spares, 0, &block) == MG_OK && block == 0 && mg_spares_block(&spares, 1, &block) == MG_OK && block == 1
          && mg_spares_block(&spares, 2, &block) == MG_OK && block == 2 && mg_spares_block(&spares, 3, &block) == MG_OK && block == 5, "numbers by labels");
    check(moves(&spares, MG_MOVE_ERASE, 3, 0, 0) && mg_spares_done(&spares, MG_MOVE_DONE) == MG_OK && moves(&spares, MG_MOVE_ERASE, 4, 0, 0)
          && mg_spares_done(&spares, MG_MOVE_FAILED) == MG_OK && moves(&spares, MG_MOVE_ERASE, 6, 0, 0) && mg_spares_done(&spares, MG_MOVE_DONE) == MG_OK
          && moves(&spares, MG_MOVE_NONE, 0, 0, 0) && mg_spares_left(&spares) == 2, "spare blocks are erased");
    check(mg_spares_use(&spares, 4, &use, &number) == MG_OK && use == MG_USE_BAD && mg_spares_use(&spares, 7, &use, &number) == MG_OK && use == MG_USE_BAD, "bad ones");
    check(mg_spares_erase_failed(&spares, 3) == MG_OK && mg_spares_block(&spares, 3, &block) == MG_OK && block == 3, "a spare block has the number");
    mg_spares_free(&spares);
    /* five blocks with labels of their own, for four numbers */
    check(mg_spares_power_up(&spares, &plan, 5, NULL, 0) == MG_OK, "a scan");
    for (uint32_t b = 0; b < 5; b++) {
        struct mg_label label = {20 + b, 3, 0};
        check(mg_spares_tell(&spares, &label, 1) == (b < 4 ? MG_OK : MG_BAD_SHAPE), "too many blocks with labels");
    }
    struct mg_move move;
    check(mg_spares_next(&spares, &move) == MG_WRONG_STEP && mg_spares_tell(&spares, NULL, 0) == MG_WRONG_STEP
          && mg_spares_program_failed(&spares, 0, 0) == MG_WRONG_STEP && mg_spares_left(&spares) == 0, "nothing comes any more");
    mg_spares_free(&spares);
}

int main(int argc, char **argv) {
    show_handles();
    show_pointers();
    show_overdue();
    show_planned();
    show_planned_shutdown();
    show_planned_mount();
    show_memory();
    show_reserves();
    show_trims();
    show_mount();
    show_undoing();
    show_erases();
    show_copied_erases();
    show_void();
    show_spares();
    show_spares_powered();
    show_texts();
    show_report(argc > 1 ? argv[1] : NULL);
    puts("all as it should be");
    return 0;
}
