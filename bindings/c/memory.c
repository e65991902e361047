/* How many bytes a die asks of the heap at most. The numbers are those of the lists in crates/: which there are, how many bytes
 * an item of each takes, and how a list grows. measured.c compares them with a heap that counts. */
#include "proved.h"

/* How many items a list has room for that had room for `room` and is to have `wanted`: as many, or twice as many as before. */
static uint64_t grown(uint64_t room, uint64_t wanted, uint64_t first) {
    if (wanted <= room) return room;
    if (wanted < first) wanted = first;
    return wanted < 2 * room ? 2 * room : wanted;
}

/* How many a list has room for that has grown one by one: the next power of two. */
static uint64_t doubled(uint64_t items, uint64_t first) {
    uint64_t room = items ? first : 0;
    while (room < items) room *= 2;
    return room;
}

static uint64_t most(uint64_t a, uint64_t b) { return a > b ? a : b; }

static uint64_t least(uint64_t a, uint64_t b) { return a < b ? a : b; }

/* A list whose room is asked for once. */
static uint64_t list(uint64_t items, uint64_t first) { return grown(0, items, first); }

static uint64_t at_birth(const struct mg_plan *plan, uint64_t tasks) {
    const uint64_t blocks = plan->blocks, cells = blocks * plan->pages, listed = doubled(tasks, 4);
    return 1136                                           /* the die itself */
           + cells * 16 + blocks * 12                     /* the mirror: names; by block what is programmed, in erase, erased */
           + plan->logical * (uint64_t)4 + cells * 4      /* the map: by page its cell, by cell its page */
           + blocks * (4 + 4 + 4 + 4)                     /* valid pages, first pages, programmed pages, erases */
           + (blocks + 63) / 64 * 8                       /* free blocks, a bit each */
           + blocks * (8 * 4) + (plan->pages + 1) * (uint64_t)8 /* blocks to collect, by count, linked both ways; their erases */
           + tasks * (1 + 40 + 3 * 4)                     /* by task whether and what it collects; its accounts */
           + listed * 4 + (plan->common ? listed * 16 : 0); /* caps and times */
}

/* Beside that: all of it reserved at once, jobs first. */
static uint64_t when_reserved(uint64_t tasks, uint64_t slots, uint64_t jobs, uint64_t operations) {
    const uint64_t events = slots + jobs, first = list(jobs, 4), first_callers = jobs ? list(most(jobs, 64), 4) : 0;
    uint64_t entries = first, callers = first_callers;
    if (events > first) {
        entries = grown(first, events, 4);
        callers = grown(first_callers, most(events, 64), 4);
    }
    const uint64_t log = entries * 16 + callers * 8;
    /* while the entries are moved the old ones are there, too, and then the old callers */
    uint64_t moving = log;
    if (entries > first) moving = most(moving, entries * 16 + first * 16 + first_callers * 8);
    if (callers > first_callers) moving = most(moving, log + first_callers * 8);
    return moving + (jobs ? list(tasks + jobs, 4) * 12 : 0)        /* waivers */
           + list(jobs, 4) * (48 + 8 + 8)                          /* jobs, those that wait, those that are released */
           + list(operations, 8) + list(operations, 4) * (4 + 16 + 16); /* operations: kind, page, what it writes or has read */
}

/* Beside that of its birth: nothing is reserved, and each list grows as it goes. */
static uint64_t when_grown(uint64_t tasks, uint64_t slots, uint64_t jobs, uint64_t operations) {
    /* one more of each: a slot that has begun, a job that is refused half way; a life has no more than these */
    const uint64_t rows = least(jobs + 1, 65536), events = least(slots + 1, 1048576) + rows;
    const uint64_t entries = doubled(events, 4) * 16, callers = doubled(events + 64, 64) * 8;
    const uint64_t table = doubled(rows, 4) * 48, queues = doubled(rows, 4) * (8 + 8);
    const uint64_t waivers = 2 * (tasks + rows) * 12;
    /* a job's operations are added at once, so that these grow to between once and twice what they have */
    const uint64_t kinds = 8 + 2 * operations, pages = (4 + 2 * operations) * 4, names = (8 + 2 * operations) * 16;
    const uint64_t moved = most(entries / 2, most(table / 2, names / 2));
    return entries + callers + table + queues + waivers + kinds + pages + names + moved;
}

/* What a question takes beside that and gives back: a report has rows twice, and a checkpoint what it reports. */
static uint64_t when_asked(const struct mg_plan *plan, uint64_t tasks, uint64_t jobs) {
    const uint64_t rows = doubled(jobs, 4) * (24 + 12) + jobs * 24;
    const uint64_t stands = plan->logical * (uint64_t)12 + plan->blocks * (uint64_t)8 + tasks * 4 + doubled(plan->logical, 4) * (16 + 8);
    return most(most(rows, stands), 64 * 16);
}

/* What mg_resume takes beside that of a birth, and gives back: the arrays of the checkpoint. */
static uint64_t when_resumed(const struct mg_plan *plan, uint64_t tasks) {
    return doubled(plan->logical, 4) * (12 + 16) + doubled(plan->blocks, 4) * 8 + tasks * 4;
}

uint32_t mg_memory(const struct mg_plan *plan, const struct mg_task *tasks, size_t count, uint32_t slots, uint32_t jobs,
                   uint32_t operations, struct mg_bytes *bytes) {
    if (!bytes) return MG_NULL_POINTER;
    uint32_t refusal = mg_plan_bound(plan, tasks, count);
    if (refusal) return refusal;
    bytes->birth = at_birth(plan, count);
    bytes->reserved = bytes->birth + when_reserved(count, slots, jobs, operations);
    bytes->life = bytes->birth + when_grown(count, slots, jobs, operations);
    bytes->question = when_asked(plan, count, jobs);
    bytes->resume = bytes->birth + when_resumed(plan, count);
    return MG_OK;
}
