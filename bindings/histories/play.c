/* Plays random histories through C. Each call goes to the script, what it was answered to the answers, a line each; the
 * script is then replayed over DieCore::slot (replay.rt.txt), whose answers have to be the same, line for line. Some of the
 * renewals give the memory of the log back, and some are a checkpoint and a die that goes on from it.
 *
 *   play SEED COUNT SCRIPT ANSWERS
 *
 * The chip is simulated here, and finds fault with each call that a chip doesn't allow. In half of the histories it fails
 * after some calls, gives another name than was programmed, or a trim can't be noted. Each certificate is checked, too, and that
 * each page lies where it was written last, at any moment and of a die that is stopped.
 *
 * So is the heap: it refuses some calls, which are made again, and all while what is reserved has to do. */
#include "maulgreen.h"
#include <inttypes.h>
#include <stdio.h>
#include <stdlib.h>
#include <string.h>

enum { BLOCKS = 12, PAGES = 6, TASKS = 3, LOGICAL = 60, LISTED = 4096, CHUNK = 40 };
#define BLANK UINT32_MAX

static FILE *script, *answers;

static void check(int holds, const char *what) {
    if (!holds) { fprintf(stderr, "wrong: %s\n", what); exit(1); }
}

/* ---- The heap ---------------------------------------------------------------------------------------------------- */

static uint64_t held;                  /* bytes in blocks that aren't given back */
static uint32_t grants = UINT32_MAX;   /* how many more calls are granted */
static uint32_t asked, refused_calls, covered_calls; /* over all histories */

void *mg_alloc(size_t size, size_t align) {
    asked++;
    if (align > 16 || grants == 0) return NULL;
    if (grants != UINT32_MAX) grants--;
    size_t *block = malloc(16 + size);
    if (!block) return NULL;
    *block = size;
    held += size;
    return (char *)block + 16;
}

void mg_dealloc(void *at) {
    size_t *block = (size_t *)(void *)((char *)at - 16);
    held -= *block;
    free(block);
}

void *mg_realloc(void *at, size_t kept, size_t size, size_t align) {
    void *to = mg_alloc(size, align);
    if (!to) return NULL;
    memcpy(to, at, kept);
    mg_dealloc(at);
    return to;
}

/* ---- Random numbers ---------------------------------------------------------------------------------------------- */

static uint64_t state;

static uint32_t random_below(uint32_t bound) { /* splitmix64 */
    uint64_t z = (state += 0x9E3779B97F4A7C15u);
    z = (z ^ (z >> 30)) * 0xBF58476D1CE4E5B9u;
    z = (z ^ (z >> 27)) * 0x94D049BB133111EBu;
    return (uint32_t)((z ^ (z >> 31)) % bound);
}

static uint32_t between(uint32_t least, uint32_t most) { return least + random_below(most - least + 1); }

/* Few callers, so that alike entries of one caller come. */
static uint32_t random_caller(void) { return random_below(3) ? 7 : random_below(8) ? between(1, 9) : random_below(UINT32_MAX); }

/* ---- What is reserved: it is counted here, and while it has to do, no memory is to be had ------------------------- */

static struct { uint32_t slots, jobs, operations; } kept;

static void use_up(uint32_t *of, uint32_t count) { *of = *of > count ? *of - count : 0; }

static void raise_to(uint32_t *of, uint32_t count) { if (count > *of) *of = count; }

/* Before a call that may ask for memory: none is to be had where what is reserved covers it, and at times where it doesn't. */
static void make_scarce(int covered) { grants = covered ? 0 : random_below(4) ? UINT32_MAX : random_below(3); }

/* After it: whether it was refused for memory, and is to be made again. */
static int is_out_of_memory(uint32_t code, int covered) {
    check(!covered || code != MG_NO_MEMORY, "what is reserved is never refused");
    covered_calls += (uint32_t)covered;
    refused_calls += code == MG_NO_MEMORY;
    if (code == MG_NO_MEMORY) grants = UINT32_MAX;
    return code == MG_NO_MEMORY;
}

/* ---- Names: a word, four times ----------------------------------------------------------------------------------- */

static struct mg_name name_of(uint32_t word) {
    struct mg_name name;
    for (int i = 0; i < 16; i++) name.bytes[i] = (uint8_t)(word >> (8 * (i % 4)));
    return name;
}

static uint32_t word_of(const struct mg_name *name) {
    uint32_t word = 0;
    for (int i = 0; i < 4; i++) word |= (uint32_t)name->bytes[i] << (8 * i);
    struct mg_name again = name_of(word);
    check(!memcmp(&again, name, sizeof again), "a name that nobody gave");
    return word;
}

/* ---- The chip ---------------------------------------------------------------------------------------------------- */

static struct { uint32_t filled, erasing; struct mg_name cells[PAGES]; } chip[BLOCKS];
static uint32_t pages, erase_slots, calls_left;
static int fails; /* in this history the device may fail */

/* What copies have read, by task's collection. A buffer is free at its collection's next call, which is another one than the
 * program where the page was written or trimmed meanwhile. */
static struct { uint32_t used, job; struct mg_name name; } buffers[TASKS];
static uint32_t copies, dropped; /* over all histories */
static uint32_t copied;          /* the page that was copied last: jobs like it */

static void buffer(const struct mg_call *call) {
    uint32_t at = TASKS;
    for (uint32_t b = 0; b < TASKS; b++) {
        if (buffers[b].used && buffers[b].job == call->job) {
            if (call->act == MG_COPY_PROGRAM) check(!memcmp(&buffers[b].name, &call->name, sizeof call->name), "a copy of what was read");
            else dropped++;
            buffers[b].used = 0;
        }
        if (!buffers[b].used) at = b;
    }
    if (call->act != MG_COPY_READ) return;
    check(at < TASKS, "as many buffers as tasks");
    copies++;
    buffers[at].used = 1;
    buffers[at].job = call->job;
    buffers[at].name = call->name;
}

/* What each page was written with last. */
static uint32_t contents[LOGICAL];
static uint32_t trims, places_found; /* over all histories */

/* Each page lies where it was written last. */
static void look(const mg_die *die, uint32_t logical) {
    for (uint32_t p = 0; p < logical; p++) {
        struct mg_cell at = {77, 77};
        check(mg_place(die, p, &at) == MG_OK, "a place");
        if (contents[p] == BLANK) { check(at.block == MG_NOWHERE, "a blank page lies nowhere"); continue; }
        check(at.block < BLOCKS && at.page < chip[at.block].filled && !chip[at.block].erasing, "a page lies in a programmed cell");
        check(word_of(&chip[at.block].cells[at.page]) == contents[p], "and is what was written last");
        places_found++;
    }
}

/* Whether the call went well; a read that goes wrong may give another name, too. */
static uint32_t drive(const struct mg_call *call, struct mg_name *gave) {
    *gave = name_of(BLANK);
    if (call->kind == MG_CALL_NONE) return random_below(3); /* isn't looked at */
    if (call->kind == MG_CALL_TRIM) return fails && !random_below(20) ? random_below(2) * 2 : 1; /* the chip does nothing */
    if (call->act >= MG_COPY_READ) buffer(call);
    if (calls_left-- == 0) {
        if (call->kind != MG_CALL_READ || random_below(2)) return 0;
        *gave = name_of(word_of(&call->name) + 1);
        return 1;
    }
    if (call->kind == MG_CALL_READ) {
        check(call->page < chip[call->block].filled && !chip[call->block].erasing, "a read of a programmed cell");
        *gave = chip[call->block].cells[call->page];
    } else if (call->kind == MG_CALL_PROGRAM) {
        check(call->page == chip[call->block].filled && call->page < pages, "a program of the next free cell");
        check(!chip[call->block].erasing, "a program of a block in erase");
        chip[call->block].cells[chip[call->block].filled++] = call->name;
    } else {
        check(chip[call->block].filled == pages, "an erase of a full block");
        chip[call->block].erasing++;
        check(call->last == (chip[call->block].erasing == erase_slots), "the last slot of an erase");
        if (call->last) chip[call->block].filled = chip[call->block].erasing = 0;
    }
    return 1;
}

/* ---- Plans ------------------------------------------------------------------------------------------------------- */

static struct mg_plan plan;
static struct mg_task tasks[TASKS];
static uint32_t task_count;

static int is_met(void) { return mg_plan_bound(&plan, tasks, task_count) == MG_OK; }

/* Most plans have as many logical pages as their blocks allow, so that collections have to copy. */
static void random_plan(void) {
    for (;;) {
        plan.blocks = between(2, BLOCKS);
        plan.pages = between(2, PAGES);
        plan.erase_slots = between(1, 4);
        plan.alpha = between(1, plan.pages);
        plan.logical = between(1, 24);
        task_count = between(1, TASKS);
        for (uint32_t t = 0; t < task_count; t++) tasks[t].cap = between(1, 6);
        if (is_met()) break;
    }
    if (!random_below(4)) return;
    while (plan.blocks > 2 && (plan.blocks--, is_met())) continue;
    if (!is_met()) plan.blocks++;
    while (plan.logical < LOGICAL && (plan.logical++, is_met())) continue;
    if (!is_met()) plan.logical--;
}

/* ---- Calls ------------------------------------------------------------------------------------------------------- */

static uint32_t jobs; /* that were accepted */
static uint32_t words;
static int begun; /* a slot has begun */

/* `why` before a call: each refusal writes it, and nothing else does. */
static const struct mg_why unsaid = {0xABCD, 0xABCE};

static int is_said(const struct mg_why *why) { return why->first != unsaid.first && why->second != unsaid.second; }

static void report(uint32_t code, const struct mg_why *why, uint32_t number) {
    if (code == MG_OK) fprintf(answers, "taken %" PRIu32 "\n", number), jobs++;
    else fprintf(answers, "refused %" PRIu32 " %" PRIu32 " %" PRIu32 "\n", code, why->first, why->second);
}

/* A slot has begun that isn't below the release: the call is none of the history. */
static int held_back(mg_die *die, uint32_t code, uint32_t release) {
    if (code != MG_BEGUN) return 0;
    check(begun && release <= mg_now(die), "only what could change the choice has to wait");
    return 1;
}

static void submit(mg_die *die, uint32_t least_release) {
    struct mg_op ops[70] = {{0, 0, {{0}}}};
    struct mg_why why = unsaid;
    uint32_t number = 0;
    uint32_t count = random_below(20) ? between(1, 5) : random_below(3) ? 0 : 65 + random_below(5);
    uint32_t caller = random_caller(), task = random_below(30) ? random_below(task_count) : task_count;
    uint32_t release = least_release + (random_below(3) ? 0 : between(0, 9));
    if (!random_below(20) && release) release--;
    uint32_t due = release + (random_below(20) ? between(1, 12) : 0);
    for (uint32_t i = 0; i < count; i++) {
        uint32_t kind = random_below(16) ? random_below(2) : MG_TRIM, page = random_below(40) ? random_below(plan.logical) : plan.logical;
        if (!random_below(4)) page = copied;
        ops[i] = (struct mg_op){kind, page, name_of(++words)};
    }
    if (count > 0 && !random_below(20)) { /* none of the history: the store has no such operation */
        struct mg_op last = ops[count > 65 ? 64 : count - 1];
        ops[count > 65 ? 64 : count - 1].kind = 3 + random_below(2) * 0xFFFFFFF0u;
        check(mg_submit(die, 7, task, release, due, ops, count, &number, &why) == MG_BAD_KIND, "a kind above 2");
        check(why.first == 0 && why.second == 0, "it has no numbers");
        why = unsaid;
        ops[count > 65 ? 64 : count - 1] = last;
    }
    int covered = kept.jobs > 0 && kept.operations >= count;
    uint32_t code;
    for (make_scarce(covered);; why = unsaid) {
        code = mg_submit(die, caller, task, release, due, ops, count, &number, &why);
        check(is_said(&why) == (code != MG_OK), "each refusal says why, and nothing else");
        if (!is_out_of_memory(code, covered)) break;
    }
    grants = UINT32_MAX;
    if (held_back(die, code, release)) return;
    if (code == MG_OK) use_up(&kept.jobs, 1), use_up(&kept.operations, count);
    fprintf(script, "submit %" PRIu32 " %" PRIu32 " %" PRIu32 " %" PRIu32 " %" PRIu32, caller, task, release, due, count);
    for (uint32_t i = 0; i < count; i++)
        fprintf(script, " %" PRIu32 " %" PRIu32 " %" PRIu32, ops[i].kind, ops[i].page, word_of(&ops[i].name));
    fputc('\n', script);
    report(code, &why, number);
}

static void collect(mg_die *die, uint32_t least_release) {
    struct mg_why why = unsaid;
    uint32_t number = 0;
    uint32_t caller = random_caller(), task = random_below(30) ? random_below(task_count) : task_count;
    uint32_t release = least_release + (random_below(3) ? 0 : between(0, 9));
    uint32_t due = release + (random_below(20) ? between(1, 30) : 0);
    int covered = kept.jobs > 0;
    uint32_t code;
    for (make_scarce(covered);; why = unsaid) {
        code = mg_collect(die, caller, task, release, due, &number, &why);
        check(is_said(&why) == (code != MG_OK), "each refusal says why, and nothing else");
        if (!is_out_of_memory(code, covered)) break;
    }
    grants = UINT32_MAX;
    if (held_back(die, code, release)) return;
    if (code == MG_OK) use_up(&kept.jobs, 1);
    fprintf(script, "collect %" PRIu32 " %" PRIu32 " %" PRIu32 " %" PRIu32 "\n", caller, task, release, due);
    report(code, &why, number);
}

/* Entries of the log from a place on, as far as there is room, and what was waived in them. */
static void ask_entries(const mg_die *die, uint32_t from, uint32_t count) {
    static const struct mg_entry unwritten = {99, 98, 97, 96, 95};
    struct mg_entry entries[CHUNK + 1];
    struct mg_waived waived[TASKS + 1] = {{0, 0}};
    const uint64_t len = mg_len(die);
    const uint32_t there = from < len ? (uint32_t)(len - from) : 0, told = there < count ? there : count;
    for (uint32_t i = 0; i <= CHUNK; i++) entries[i] = unwritten;
    check(mg_entries(die, from, entries, count) == MG_OK, "entries");
    for (uint32_t i = told; i <= CHUNK; i++) check(!memcmp(&entries[i], &unwritten, sizeof unwritten), "no more than are there");
    fprintf(answers, " entries %" PRIu32, told);
    for (uint32_t i = 0; i < told; i++) {
        fprintf(answers, " %" PRIu32 " %" PRIu32 " %" PRIu32 " %" PRIu32 " %" PRIu32, entries[i].what, entries[i].caller, entries[i].job,
                entries[i].at, entries[i].waived);
        check(entries[i].waived <= TASKS, "one a task at most");
        waived[entries[i].waived] = (struct mg_waived){94, 93};
        check(mg_entry_waived(die, from + i, waived, TASKS + 1) == MG_OK, "what was waived");
        check(waived[entries[i].waived].job == 94 && waived[entries[i].waived].given == 93, "no more than were");
        for (uint32_t w = 0; w < entries[i].waived; w++) fprintf(answers, " %" PRIu32 " %" PRIu32, waived[w].job, waived[w].given);
    }
}

/* Every question: the moment, the worst and its certificate, the rows, one job, where a page lies, and some entries. */
static void ask(mg_die *die) {
    static struct mg_row rows[LISTED];
    static uint32_t listed[LISTED];
    struct mg_worst_job worst;
    struct mg_overdue_job overdue;
    struct mg_cert cert;
    struct mg_job_outcome outcome;
    struct mg_job_head head;
    struct mg_name reads[64];
    struct mg_cell at;
    uint32_t total, number = random_below(jobs + 2), page = random_below(plan.logical + 1), from = random_below((uint32_t)mg_len(die) + 3);
    uint32_t count = random_below(CHUNK + 1);
    fprintf(script, "ask %" PRIu32 " %" PRIu32 " %" PRIu32 " %" PRIu32 "\n", number, page, from, count);
    look(die, plan.logical);
    fprintf(answers, "at %" PRIu32 " %" PRIu64 " %" PRIu64, mg_now(die), mg_len(die), mg_records(die));
    if (mg_worst(die, &worst) == MG_OK) fprintf(answers, " worst %" PRIu32 " %" PRId64, worst.job, worst.lateness);
    if (mg_overdue(die, &overdue) == MG_OK)
        fprintf(answers, " overdue %" PRIu32 " %" PRIu32 " %" PRIu64, overdue.job, overdue.due, overdue.late_by);
    check(mg_rows(die, rows, LISTED, &total) == MG_OK && total <= LISTED, "rows");
    fprintf(answers, " rows %" PRIu32, total);
    for (uint32_t i = 0; i < total; i++)
        fprintf(answers, " %" PRIu32 " %" PRIu32 " %" PRIu32 " %" PRIu32 " %" PRIu32 " %" PRIu32, rows[i].number, rows[i].release,
                rows[i].due, rows[i].work, rows[i].done, rows[i].completion);
    if (mg_certificate(die, &cert, listed, LISTED) == MG_OK) {
        fprintf(answers, " certificate %" PRIu32 " %" PRIu32 " %" PRIu32 " %" PRIu32, cert.job, cert.start, cert.due, cert.completion);
        for (uint32_t i = 0; i < cert.jobs; i++) fprintf(answers, " %" PRIu32, listed[i]);
        check(mg_check(rows, total, &cert, listed, cert.jobs) == MG_OK, "the certificate holds");
        cert.completion++;
        check(mg_check(rows, total, &cert, listed, cert.jobs) == MG_CERT_WRONG_SUM, "a later one doesn't");
    }
    uint32_t code = mg_outcome(die, number, &outcome, reads, 64);
    fprintf(answers, " job %" PRIu32, code);
    if (code == MG_OK) {
        uint32_t caller;
        check(mg_job(die, number, &head) == MG_OK && mg_caller(die, number, &caller) == MG_OK, "job");
        fprintf(answers, " %" PRIu32 " %" PRIu32 " %" PRIu32 " %" PRIu32 " %" PRIu32 " state %" PRIu32 " %" PRIu32 " %" PRId64 " %" PRIu32, head.collects,
                head.task, head.release, head.due, caller, outcome.state, outcome.completion, outcome.lateness, outcome.given);
        for (uint32_t i = 0; i < outcome.reads; i++) fprintf(answers, " %" PRIu32, word_of(&reads[i]));
    }
    check(mg_place(die, page, &at) == MG_OK, "a place");
    if (at.block == MG_NOWHERE) fputs(" nowhere", answers);
    else fprintf(answers, " place %" PRIu32 " %" PRIu32, at.block, at.page);
    ask_entries(die, from, count);
    fputc('\n', answers);
}

/* Slots or jobs are reserved, within a slot and of a stopped die, too. Where as many are reserved already, no memory is needed. */
static void reserve(mg_die *die) {
    uint32_t slots = random_below(6), to_come = random_below(4), operations = random_below(10), code;
    int covered = slots <= kept.slots, covers = to_come <= kept.jobs && operations <= kept.operations;
    make_scarce(covered);
    do code = mg_reserve(die, slots);
    while (is_out_of_memory(code, covered));
    check(code == MG_OK, "slots are reserved");
    make_scarce(covers);
    do code = mg_reserve_jobs(die, to_come, operations);
    while (is_out_of_memory(code, covers));
    check(code == MG_OK, "jobs are reserved");
    grants = UINT32_MAX;
    raise_to(&kept.slots, slots);
    raise_to(&kept.jobs, to_come);
    raise_to(&kept.operations, operations);
}

static int stands; /* the checkpoint from which the die was resumed */

/* One slot. Answers whether the die goes on. */
static int slot(mg_die *die) {
    struct mg_call call;
    struct mg_reply reply;
    struct mg_waived waived[16];
    struct mg_name gave;
    const uint32_t caller = random_caller();
    int covered = kept.slots > 0;
    uint32_t code;
    make_scarce(covered);
    do code = mg_begin(die, caller, &call);
    while (is_out_of_memory(code, covered));
    int stood = code == MG_CHECKPOINT_STANDS;
    if (stood) {
        check(stands && mg_checkpoint_void(die) == MG_OK, "a checkpoint stood");
        do code = mg_begin(die, caller, &call);
        while (is_out_of_memory(code, covered));
    }
    grants = UINT32_MAX;
    check(code == MG_OK, "begin");
    if (stands) check(stood == (call.kind == MG_CALL_PROGRAM || call.kind == MG_CALL_ERASE || call.kind == MG_CALL_TRIM), "it spends the checkpoint");
    if (stood) stands = 0;
    raise_to(&kept.slots, 1);
    if (!random_below(8)) reserve(die);
    check(call.slot == mg_now(die), "the slot that has begun is the present one");
    begun = 1;
    for (uint32_t n = random_below(4) ? 0 : between(1, 3); n > 0; n--) { /* arrivals while the device works */
        uint32_t least = call.slot + 1;
        if (random_below(2)) submit(die, least); else collect(die, least);
        if (!random_below(3)) ask(die);
    }
    uint32_t ok = drive(&call, &gave), asked_before = asked;
    int unnoted = call.kind == MG_CALL_TRIM && ok != 1; /* the die in Rattle has no such call: it is stopped there */
    fprintf(script, "%s %" PRIu32 "\n", unnoted ? "stop" : "slot", caller);
    code = mg_end(die, ok, &gave, &reply, waived, 16);
    begun = 0;
    check(asked == asked_before, "the end of a slot asks for no memory");
    if (code) {
        fprintf(answers, "refused %" PRIu32 " 0 0\n", code);
        check(mg_begin(die, 9, &call) == MG_DIE_STOPPED, "the die is stopped");
        reserve(die);
        return 0;
    }
    use_up(&kept.slots, 1);
    if (reply.act == MG_DID_WRITE) contents[reply.page] = word_of(&reply.name);
    if (reply.act == MG_DID_TRIM) contents[reply.page] = BLANK, trims++;
    check((reply.act == MG_DID_TRIM) == (call.kind == MG_CALL_TRIM), "a trim is told");
    if (reply.act == MG_COPY_READ) copied = reply.page;
    check(call.logical == (reply.act == MG_IDLE || reply.act == MG_ERASE ? MG_NO_PAGE : reply.page), "the page was announced");
    check(reply.slot == call.slot && reply.act == call.act && reply.job == call.job, "the slot did what was announced");
    fprintf(answers, "slot %" PRIu32 " %" PRIu32 " %" PRIu32 " %" PRIu32 " %" PRIu32 " %" PRIu32 " %" PRIu32, reply.caller, reply.slot, reply.act, reply.job, reply.page,
            reply.finished, word_of(&reply.name));
    for (uint32_t i = 0; i < reply.waived; i++) fprintf(answers, " %" PRIu32 " %" PRIu32, waived[i].job, waived[i].given);
    fputc('\n', answers);
    return 1;
}

static uint64_t birth; /* bytes of a die without a log */

/* The die goes on from a checkpoint, which is void at once, or when a slot would spend it. */
static uint32_t goes_on(mg_die *die, uint32_t code) {
    stands = code == MG_OK && random_below(2);
    if (code == MG_OK && !stands) check(mg_checkpoint_void(die) == MG_OK, "it is void");
    return code;
}

/* A renewal, which may give memory back; or the die is freed and made again from its checkpoint, which has to come to the
 * same. */
static uint32_t start_anew(mg_die *die, int gives_back, struct mg_why *why) {
    static struct mg_cell places[LOGICAL];
    static struct mg_name names[LOGICAL];
    struct mg_block blocks[BLOCKS];
    uint32_t balances[TASKS], spare;
    if (gives_back) {
        uint32_t refusal = mg_renew_giving_back(die, why);
        if (refusal == MG_OK) {
            check(held == birth, "the memory of the log is given back");
            memset(&kept, 0, sizeof kept);
        }
        return refusal;
    }
    if (random_below(2)) {
        grants = 0;
        uint32_t refusal = mg_renew(die, why);
        grants = UINT32_MAX;
        return refusal;
    }
    uint32_t code = mg_checkpoint(die, places, plan.logical, names, plan.logical, blocks, plan.blocks, balances, task_count, &spare, NULL, why);
    if (code) return code;
    for (uint32_t p = 0; p < plan.logical; p++) {
        if (places[p].block == MG_NOWHERE) check(word_of(&names[p]) == 0xFFFFFFFFu, "a page that lies nowhere is blank");
        else check(!memcmp(&names[p], &chip[places[p].block].cells[places[p].page], sizeof names[p]), "a page's name is that of its cell");
    }
    for (uint32_t b = 0; b < plan.blocks; b++) check(blocks[b].filled == chip[b].filled && !chip[b].erasing, "the chip is as it says");
    mg_free(die);
    check(held == 0, "nothing is left of it");
    memset(&kept, 0, sizeof kept);
    check(mg_resume(die, &plan, tasks, task_count, places, plan.logical, names, plan.logical, blocks, plan.blocks, balances,
                       task_count, spare + 1, NULL, why) == MG_OTHER_SUM, "a page more than are free");
    check(is_said(why), "and why");
    *why = unsaid;
    return goes_on(die, mg_resume(die, &plan, tasks, task_count, places, plan.logical, names, plan.logical, blocks, plan.blocks, balances,
                                  task_count, spare, NULL, why));
}

static void renew(mg_die *die) {
    struct mg_why why = unsaid;
    int gives_back = !random_below(3);
    fputs(gives_back ? "renew_giving_back\n" : "renew\n", script);
    uint32_t code = start_anew(die, gives_back, &why);
    check(is_said(&why) == (code != MG_OK), "each refusal says why, and nothing else");
    if (code == MG_OK) { fputs("renewed\n", answers); jobs = 0; }
    else fprintf(answers, "refused %" PRIu32 " %" PRIu32 " 0\n", code, why.first);
}

static void history(void) {
    mg_die die = {0};
    random_plan();
    pages = plan.pages;
    erase_slots = plan.erase_slots;
    fails = (int)random_below(2);
    calls_left = fails ? random_below(60) : 1000000u;
    jobs = 0;
    stands = 0;
    memset(chip, 0, sizeof chip);
    memset(buffers, 0, sizeof buffers);
    copied = 0;
    memset(&kept, 0, sizeof kept);
    memset(contents, 0xFF, sizeof contents);
    fprintf(script, "die %" PRIu32 " %" PRIu32 " %" PRIu32 " %" PRIu32 " %" PRIu32 " %" PRIu32 " %" PRIu32, plan.blocks, plan.pages, plan.erase_slots,
            plan.logical, plan.alpha, calls_left, task_count);
    for (uint32_t t = 0; t < task_count; t++) fprintf(script, " %" PRIu32, tasks[t].cap);
    fputc('\n', script);
    check(mg_new(&die, &plan, tasks, task_count) == MG_OK, "new");
    birth = held;
    fputs("new\n", answers);
    for (uint32_t step = between(20, 400); step > 0; step--) {
        uint32_t what = random_below(32);
        if (what < 5) submit(&die, mg_now(&die));
        else if (what < 8) collect(&die, mg_now(&die));
        else if (what == 8) ask(&die);
        else if (what == 10 && !random_below(4)) reserve(&die);
        else if (what == 9 && !random_below(3)) renew(&die);
        else if (!slot(&die)) {
            for (int i = 0; i < 3; i++) ask(&die);
            submit(&die, mg_now(&die));
            collect(&die, mg_now(&die));
            renew(&die);
            break;
        }
    }
    mg_free(&die);
    check(held == 0, "nothing is left of it");
}

int main(int argc, char **argv) {
    check(argc == 5, "play SEED COUNT SCRIPT ANSWERS");
    state = strtoull(argv[1], NULL, 10);
    script = fopen(argv[3], "w");
    answers = fopen(argv[4], "w");
    check(script && answers, "the files are opened");
    uint32_t count = (uint32_t)atoi(argv[2]);
    for (uint32_t n = count; n > 0; n--) history();
    check(count < 1000 || (copies > 0 && dropped > 0), "copies, and some that aren't needed any more");
    check(!fclose(script) && !fclose(answers), "the files are written");
    check(count < 1000 || (trims && places_found && refused_calls && covered_calls), "trims, places, refused and covered calls");
    printf("%" PRIu32 " copies, %" PRIu32 " of them dropped; %" PRIu32 " trims; %" PRIu32 " places; %" PRIu32 " calls refused for memory, %" PRIu32
           " covered by what was reserved\n", copies, dropped, trims, places_found, refused_calls, covered_calls);
    return 0;
}
