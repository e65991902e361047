/* The edge of the library: each function of maulgreen.h, over what crates/flash_c proves. Nothing checks that a program in C
 * keeps to what a proof takes for granted, so this does: a pointer that may not be null is refused, one of an array of no
 * items points somewhere, and an empty handle is answered. Beyond that it passes on what it is given. */
#include "proved.h"
#include "maulgreen_layout.h"
#include <stdbool.h>
#include <string.h>

/* What an array of no items points to. Nothing is read or written there. */
static union { uint64_t aligned; uint8_t bytes[64]; } nowhere;

static bool is_array(const void *items, size_t count) { return items || count == 0; }

#define ARRAY(items) ((items) ? (items) : (void *)&nowhere)

static uint32_t unmade(const mg_die *die) { return !die ? MG_EMPTY_HANDLE : die->at ? MG_FULL_HANDLE : MG_OK; }

static bool is_full(const mg_die *die) { return die && die->at; }

/* A refusal of the edge itself, which has no numbers. */
static uint32_t refused(uint32_t refusal, struct mg_why *why) {
    if (why) why->first = why->second = 0;
    return refusal;
}

/* ---- The heap ---------------------------------------------------------------------------------------------------- */

/* What the archive asks for, under the names that it has for it: whether there was room, and where. */
struct tried { bool ok; void *at; };

struct tried rattle_alloc(size_t size, size_t align) {
    void *at = mg_alloc(size ? size : align, align);
    return (struct tried){at != NULL, at ? at : &nowhere};
}

struct tried rattle_realloc(void *old, size_t kept, size_t size, size_t align) {
    void *at = mg_realloc(old, kept, size ? size : align, align);
    return (struct tried){at != NULL, at ? at : &nowhere};
}

void rattle_dealloc(void *at) { mg_dealloc(at); }

/* ---- Versions and plans ------------------------------------------------------------------------------------------ */

uint32_t mg_version(void) { return flash_version(); }

uint32_t mg_refusal_name(uint32_t refusal, char *text, size_t count) {
    return flash_refusal_name(refusal, ARRAY(text), text ? count : 0);
}

uint32_t mg_plan_bound(const struct mg_plan *plan, const struct mg_task *tasks, size_t count) {
    if (!plan || !is_array(tasks, count)) return MG_NULL_POINTER;
    return flash_plan_bound(plan, ARRAY(tasks), count);
}

uint32_t mg_plan_test(const struct mg_plan *plan, const struct mg_task *tasks, size_t count, struct mg_load *load) {
    if (!plan || !load || !is_array(tasks, count)) return MG_NULL_POINTER;
    return flash_plan_test(plan, ARRAY(tasks), count, load);
}

uint32_t mg_check(const struct mg_row *rows, size_t row_count, const struct mg_cert *certificate, const uint32_t *jobs,
                  size_t count) {
    if (!certificate || !is_array(rows, row_count) || !is_array(jobs, count)) return MG_NULL_POINTER;
    return flash_check(ARRAY(rows), row_count, certificate, ARRAY(jobs), count);
}

/* ---- A die ------------------------------------------------------------------------------------------------------- */

uint32_t mg_new(mg_die *die, const struct mg_plan *plan, const struct mg_task *tasks, size_t count) {
    uint32_t handle = unmade(die);
    if (handle) return handle;
    if (!plan || !is_array(tasks, count)) return MG_NULL_POINTER;
    return flash_new(die, plan, ARRAY(tasks), count);
}

void mg_free(mg_die *die) {
    if (is_full(die)) flash_free(die);
}

uint32_t mg_submit(mg_die *die, uint32_t caller, uint32_t task, uint32_t release, uint32_t due, const struct mg_op *ops,
                   size_t count, uint32_t *number, struct mg_why *why) {
    uint32_t given;
    struct mg_why numbers;
    if (!is_full(die)) return refused(MG_EMPTY_HANDLE, why);
    if (!is_array(ops, count)) return refused(MG_NULL_POINTER, why);
    return flash_submit(die, caller, task, release, due, ARRAY(ops), count, number ? number : &given, why ? why : &numbers);
}

uint32_t mg_collect(mg_die *die, uint32_t caller, uint32_t task, uint32_t release, uint32_t due, uint32_t *number,
                    struct mg_why *why) {
    uint32_t given;
    struct mg_why numbers;
    if (!is_full(die)) return refused(MG_EMPTY_HANDLE, why);
    return flash_collect(die, caller, task, release, due, number ? number : &given, why ? why : &numbers);
}

uint32_t mg_begin(mg_die *die, uint32_t caller, struct mg_call *call) {
    if (!is_full(die)) return MG_EMPTY_HANDLE;
    if (!call) return MG_NULL_POINTER;
    return flash_begin(die, caller, call);
}

uint32_t mg_end(mg_die *die, uint32_t ok, const struct mg_name *name, struct mg_reply *reply, struct mg_waived *waived,
                size_t count) {
    if (!is_full(die)) return MG_EMPTY_HANDLE;
    if (!name || !reply || !is_array(waived, count)) return MG_NULL_POINTER;
    return flash_end(die, ok, name, reply, ARRAY(waived), count);
}

uint32_t mg_reserve(mg_die *die, uint32_t slots) { return is_full(die) ? flash_reserve(die, slots) : MG_EMPTY_HANDLE; }

uint32_t mg_reserve_jobs(mg_die *die, uint32_t jobs, uint32_t operations) {
    return is_full(die) ? flash_reserve_jobs(die, jobs, operations) : MG_EMPTY_HANDLE;
}

uint32_t mg_renew(mg_die *die, struct mg_why *why) {
    struct mg_why numbers;
    if (!is_full(die)) return refused(MG_EMPTY_HANDLE, why);
    return flash_renew(die, why ? why : &numbers);
}

uint32_t mg_renew_giving_back(mg_die *die, struct mg_why *why) {
    struct mg_why numbers;
    if (!is_full(die)) return refused(MG_EMPTY_HANDLE, why);
    return flash_renew_giving_back(die, why ? why : &numbers);
}

uint32_t mg_checkpoint(mg_die *die, struct mg_cell *places, size_t place_count, struct mg_name *names, size_t name_count,
                       struct mg_block *blocks, size_t block_count, uint32_t *balances, size_t balance_count, uint32_t *spare,
                       struct mg_part *part, struct mg_why *why) {
    struct mg_why numbers;
    struct mg_part known;
    if (!is_full(die)) return refused(MG_EMPTY_HANDLE, why);
    if (!spare || !is_array(places, place_count) || !is_array(names, name_count) || !is_array(blocks, block_count)
        || !is_array(balances, balance_count))
        return refused(MG_NULL_POINTER, why);
    return flash_checkpoint(die, ARRAY(places), place_count, ARRAY(names), name_count, ARRAY(blocks), block_count,
                            ARRAY(balances), balance_count, spare, part ? part : &known, why ? why : &numbers);
}

uint32_t mg_resume(mg_die *die, const struct mg_plan *plan, const struct mg_task *tasks, size_t count,
                   const struct mg_cell *places, size_t place_count, const struct mg_name *names, size_t name_count,
                   const struct mg_block *blocks, size_t block_count, const uint32_t *balances, size_t balance_count,
                   uint32_t spare, const struct mg_part *part, struct mg_why *why) {
    struct mg_why numbers;
    uint32_t handle = unmade(die);
    if (handle) return refused(handle, why);
    if (!plan || !is_array(tasks, count) || !is_array(places, place_count) || !is_array(names, name_count)
        || !is_array(blocks, block_count) || !is_array(balances, balance_count))
        return refused(MG_NULL_POINTER, why);
    struct mg_part last = {1, plan->blocks};
    return flash_resume(die, plan, ARRAY(tasks), count, ARRAY(places), place_count, ARRAY(names), name_count, ARRAY(blocks),
                        block_count, ARRAY(balances), balance_count, spare, part ? part : &last, why ? why : &numbers);
}

uint32_t mg_checkpoint_void(mg_die *die) {
    if (!is_full(die)) return MG_EMPTY_HANDLE;
    flash_checkpoint_void(die);
    return MG_OK;
}

/* ---- After a loss of power --------------------------------------------------------------------------------------- */

static bool is_mounting(const mg_mount *mount) { return mount && mount->at; }

uint32_t mg_mount_new(mg_mount *mount, const struct mg_plan *plan, const struct mg_task *tasks, size_t count) {
    if (!mount) return MG_EMPTY_HANDLE;
    if (mount->at) return MG_FULL_HANDLE;
    if (!plan || !is_array(tasks, count)) return MG_NULL_POINTER;
    return flash_mount_new(mount, plan, ARRAY(tasks), count);
}

void mg_mount_free(mg_mount *mount) {
    if (is_mounting(mount)) flash_mount_free(mount);
}

uint32_t mg_mount_next(mg_mount *mount, struct mg_step *step) {
    if (!is_mounting(mount)) return MG_EMPTY_HANDLE;
    if (!step) return MG_NULL_POINTER;
    return flash_mount_next(mount, step);
}

uint32_t mg_mount_tell(mg_mount *mount, const struct mg_label *labels, size_t count, struct mg_why *why) {
    struct mg_why numbers;
    if (!is_mounting(mount)) return refused(MG_EMPTY_HANDLE, why);
    if (!is_array(labels, count)) return refused(MG_NULL_POINTER, why);
    return flash_mount_tell(mount, ARRAY(labels), count, why ? why : &numbers);
}

uint32_t mg_mount_done(mg_mount *mount) { return is_mounting(mount) ? flash_mount_done(mount) : MG_EMPTY_HANDLE; }

uint64_t mg_mount_calls_left(mg_mount *mount) { return is_mounting(mount) ? flash_mount_calls_left(mount) : 0; }

uint32_t mg_mount_place(mg_mount *mount, uint32_t page, struct mg_cell *place) {
    if (!is_mounting(mount)) return MG_EMPTY_HANDLE;
    if (!place) return MG_NULL_POINTER;
    return flash_mount_place(mount, page, place);
}

uint32_t mg_mount_end(mg_mount *mount, const struct mg_name *names, size_t name_count, mg_die *die) {
    if (!is_mounting(mount)) return MG_EMPTY_HANDLE;
    uint32_t handle = unmade(die);
    if (handle) return handle;
    if (!is_array(names, name_count)) return MG_NULL_POINTER;
    return flash_mount_end(mount, ARRAY(names), name_count, die);
}

uint64_t mg_serial(const mg_die *die) {
    if (!is_full(die)) return 0;
    mg_die own = *die;
    return flash_serial(&own);
}

uint32_t mg_part_block(const mg_die *die, uint32_t block, uint32_t *part_block) {
    if (!is_full(die)) return MG_EMPTY_HANDLE;
    if (!part_block) return MG_NULL_POINTER;
    mg_die own = *die;
    *part_block = flash_part_block(&own, block);
    return MG_OK;
}

/* ---- Blocks that fail -------------------------------------------------------------------------------------------- */

static bool has_table(const mg_spares *spares) { return spares && spares->at; }

static uint32_t untabled(const mg_spares *spares, const struct mg_plan *plan, const uint32_t *bad, size_t count) {
    if (!spares) return MG_EMPTY_HANDLE;
    if (spares->at) return MG_FULL_HANDLE;
    return plan && is_array(bad, count) ? MG_OK : MG_NULL_POINTER;
}

uint32_t mg_spares_new(mg_spares *spares, const struct mg_plan *plan, uint32_t blocks, const uint32_t *bad, size_t count) {
    uint32_t refusal = untabled(spares, plan, bad, count);
    return refusal ? refusal : flash_spares_new(spares, plan, blocks, ARRAY(bad), count);
}

uint32_t mg_spares_power_up(mg_spares *spares, const struct mg_plan *plan, uint32_t blocks, const uint32_t *bad, size_t count) {
    uint32_t refusal = untabled(spares, plan, bad, count);
    return refusal ? refusal : flash_spares_power_up(spares, plan, blocks, ARRAY(bad), count);
}

void mg_spares_free(mg_spares *spares) {
    if (has_table(spares)) flash_spares_free(spares);
}

uint32_t mg_spares_next(mg_spares *spares, struct mg_move *move) {
    if (!has_table(spares)) return MG_EMPTY_HANDLE;
    if (!move) return MG_NULL_POINTER;
    return flash_spares_next(spares, move);
}

uint32_t mg_spares_tell(mg_spares *spares, const struct mg_label *labels, size_t count) {
    if (!has_table(spares)) return MG_EMPTY_HANDLE;
    if (!is_array(labels, count)) return MG_NULL_POINTER;
    return flash_spares_tell(spares, ARRAY(labels), count);
}

uint32_t mg_spares_done(mg_spares *spares, uint32_t how) {
    return has_table(spares) ? flash_spares_done(spares, how) : MG_EMPTY_HANDLE;
}

uint32_t mg_spares_program_failed(mg_spares *spares, uint32_t number, uint32_t page) {
    return has_table(spares) ? flash_spares_program_failed(spares, number, page) : MG_EMPTY_HANDLE;
}

uint32_t mg_spares_erase_failed(mg_spares *spares, uint32_t number) {
    return has_table(spares) ? flash_spares_erase_failed(spares, number) : MG_EMPTY_HANDLE;
}

uint32_t mg_spares_block(mg_spares *spares, uint32_t number, uint32_t *block) {
    if (!has_table(spares)) return MG_EMPTY_HANDLE;
    if (!block) return MG_NULL_POINTER;
    return flash_spares_block(spares, number, block);
}

uint32_t mg_spares_use(mg_spares *spares, uint32_t block, uint32_t *use, uint32_t *number) {
    if (!has_table(spares)) return MG_EMPTY_HANDLE;
    if (!use || !number) return MG_NULL_POINTER;
    return flash_spares_use(spares, block, use, number);
}

uint32_t mg_spares_left(mg_spares *spares) { return has_table(spares) ? flash_spares_left(spares) : 0; }

/* ---- Questions ---------------------------------------------------------------------------------------------------
 *
 * A function that has a handle takes the die out of it and puts it back. A question has one of its own for that, so that it
 * writes nothing that another one reads: of the die itself it only reads. */

uint32_t mg_now(const mg_die *die) {
    if (!is_full(die)) return 0;
    mg_die own = *die;
    return flash_now(&own);
}

uint64_t mg_len(const mg_die *die) {
    if (!is_full(die)) return 0;
    mg_die own = *die;
    return flash_len(&own);
}

uint64_t mg_records(const mg_die *die) {
    if (!is_full(die)) return 0;
    mg_die own = *die;
    return flash_records(&own);
}

uint32_t mg_place(const mg_die *die, uint32_t page, struct mg_cell *place) {
    if (!is_full(die)) return MG_EMPTY_HANDLE;
    if (!place) return MG_NULL_POINTER;
    mg_die own = *die;
    return flash_place(&own, page, place);
}

uint32_t mg_entries(const mg_die *die, uint32_t from, struct mg_entry *entries, size_t count) {
    if (!is_full(die)) return MG_EMPTY_HANDLE;
    if (!is_array(entries, count)) return MG_NULL_POINTER;
    mg_die own = *die;
    return flash_entries(&own, from, ARRAY(entries), count);
}

uint32_t mg_entry_waived(const mg_die *die, uint32_t entry, struct mg_waived *waived, size_t count) {
    if (!is_full(die)) return MG_EMPTY_HANDLE;
    if (!is_array(waived, count)) return MG_NULL_POINTER;
    mg_die own = *die;
    return flash_waived(&own, entry, ARRAY(waived), count);
}

uint32_t mg_job(const mg_die *die, uint32_t number, struct mg_job_head *job) {
    if (!is_full(die)) return MG_EMPTY_HANDLE;
    if (!job) return MG_NULL_POINTER;
    mg_die own = *die;
    return flash_job(&own, number, job);
}

uint32_t mg_caller(const mg_die *die, uint32_t number, uint32_t *caller) {
    if (!is_full(die)) return MG_EMPTY_HANDLE;
    if (!caller) return MG_NULL_POINTER;
    mg_die own = *die;
    return flash_caller(&own, number, caller);
}

uint32_t mg_outcome(const mg_die *die, uint32_t job, struct mg_job_outcome *outcome, struct mg_name *reads, size_t count) {
    if (!is_full(die)) return MG_EMPTY_HANDLE;
    if (!outcome || !is_array(reads, count)) return MG_NULL_POINTER;
    mg_die own = *die;
    return flash_outcome(&own, job, outcome, ARRAY(reads), count);
}

uint32_t mg_worst(const mg_die *die, struct mg_worst_job *worst) {
    if (!is_full(die)) return MG_EMPTY_HANDLE;
    if (!worst) return MG_NULL_POINTER;
    mg_die own = *die;
    return flash_worst(&own, worst);
}

uint32_t mg_overdue(mg_die *die, struct mg_overdue_job *overdue) {
    if (!is_full(die)) return MG_EMPTY_HANDLE;
    if (!overdue) return MG_NULL_POINTER;
    return flash_overdue(die, overdue);
}

uint32_t mg_certificate(const mg_die *die, struct mg_cert *certificate, uint32_t *jobs, size_t count) {
    if (!is_full(die)) return MG_EMPTY_HANDLE;
    if (!certificate || !is_array(jobs, count)) return MG_NULL_POINTER;
    mg_die own = *die;
    return flash_certificate(&own, certificate, ARRAY(jobs), count);
}

uint32_t mg_rows(const mg_die *die, struct mg_row *rows, size_t count, uint32_t *total) {
    if (!is_full(die)) return MG_EMPTY_HANDLE;
    if (!total || !is_array(rows, count)) return MG_NULL_POINTER;
    mg_die own = *die;
    return flash_rows(&own, ARRAY(rows), count, total);
}

/* ---- A die that keeps its plan ------------------------------------------------------------------------------------ */

static bool is_planned(const mg_planned *die) { return die && die->at; }

static uint32_t unasked(uint32_t refusal, struct mg_unasked *why) {
    if (why) *why = (struct mg_unasked){0, 0};
    return refusal;
}

uint32_t mg_planned_new(mg_planned *die, const struct mg_plan *plan, const struct mg_task *tasks, const struct mg_terms *terms,
                        size_t count, uint32_t longest, struct mg_unasked *why) {
    struct mg_unasked numbers;
    if (!die) return unasked(MG_EMPTY_HANDLE, why);
    if (die->at) return unasked(MG_FULL_HANDLE, why);
    if (!plan || !is_array(tasks, count) || !is_array(terms, count)) return unasked(MG_NULL_POINTER, why);
    return flash_planned_new(die, plan, ARRAY(tasks), count, ARRAY(terms), count, longest, why ? why : &numbers);
}

void mg_planned_free(mg_planned *die) {
    if (is_planned(die)) flash_planned_free(die);
}

static uint32_t ask(mg_planned *die, uint32_t burst, uint32_t caller, uint32_t task, const struct mg_op *ops, size_t count,
                    struct mg_taken *taken, struct mg_unasked *why) {
    struct mg_unasked numbers;
    if (!is_planned(die)) return unasked(MG_EMPTY_HANDLE, why);
    if (!taken || !is_array(ops, count)) return unasked(MG_NULL_POINTER, why);
    return flash_planned_ask(die, burst, caller, task, ARRAY(ops), count, taken, why ? why : &numbers);
}

uint32_t mg_planned_ask(mg_planned *die, uint32_t caller, uint32_t task, const struct mg_op *ops, size_t count,
                        struct mg_taken *taken, struct mg_unasked *why) {
    return ask(die, 0, caller, task, ops, count, taken, why);
}

uint32_t mg_planned_ask_all(mg_planned *die, uint32_t caller, uint32_t task, const struct mg_op *ops, size_t count,
                            struct mg_taken *taken, struct mg_unasked *why) {
    return ask(die, 1, caller, task, ops, count, taken, why);
}

uint32_t mg_planned_begin(mg_planned *die, uint32_t caller, struct mg_call *call) {
    if (!is_planned(die)) return MG_EMPTY_HANDLE;
    if (!call) return MG_NULL_POINTER;
    return flash_planned_begin(die, caller, call);
}

uint32_t mg_planned_end(mg_planned *die, uint32_t ok, const struct mg_name *name, struct mg_reply *reply, struct mg_waived *waived,
                        size_t count) {
    if (!is_planned(die)) return MG_EMPTY_HANDLE;
    if (!name || !reply || !is_array(waived, count)) return MG_NULL_POINTER;
    return flash_planned_end(die, ok, name, reply, ARRAY(waived), count);
}

uint64_t mg_planned_clock(const mg_planned *die) {
    if (!is_planned(die)) return 0;
    mg_planned own = *die;
    return flash_planned_clock(&own);
}

uint32_t mg_planned_life(const mg_planned *die, struct mg_life *life) {
    if (!is_planned(die)) return MG_EMPTY_HANDLE;
    if (!life) return MG_NULL_POINTER;
    mg_planned own = *die;
    return flash_planned_life(&own, life);
}

uint32_t mg_planned_waiting(const mg_planned *die, uint32_t task, uint32_t *operations) {
    if (!is_planned(die)) return MG_EMPTY_HANDLE;
    if (!operations) return MG_NULL_POINTER;
    mg_planned own = *die;
    return flash_planned_waiting(&own, task, operations);
}

uint32_t mg_planned_job(const mg_planned *die, uint32_t number, struct mg_job_head *job) {
    if (!is_planned(die)) return MG_EMPTY_HANDLE;
    if (!job) return MG_NULL_POINTER;
    mg_planned own = *die;
    return flash_planned_job(&own, number, job);
}

uint32_t mg_planned_outcome(const mg_planned *die, uint32_t job, struct mg_job_outcome *outcome, struct mg_name *reads,
                            size_t count) {
    if (!is_planned(die)) return MG_EMPTY_HANDLE;
    if (!outcome || !is_array(reads, count)) return MG_NULL_POINTER;
    mg_planned own = *die;
    return flash_planned_outcome(&own, job, outcome, ARRAY(reads), count);
}

uint32_t mg_planned_place(const mg_planned *die, uint32_t page, struct mg_cell *place) {
    if (!is_planned(die)) return MG_EMPTY_HANDLE;
    if (!place) return MG_NULL_POINTER;
    mg_planned own = *die;
    return flash_planned_place(&own, page, place);
}

static uint32_t unresumed(uint32_t refusal, struct mg_unresumed *why) {
    if (why) *why = (struct mg_unresumed){0, 0, 0};
    return refusal;
}

static uint32_t unkept(const mg_planned *die) { return !die ? MG_EMPTY_HANDLE : die->at ? MG_FULL_HANDLE : MG_OK; }

uint32_t mg_planned_checkpoint(mg_planned *die, struct mg_cell *places, size_t place_count, struct mg_name *names, size_t name_count,
                               struct mg_block *blocks, size_t block_count, uint32_t *balances, size_t balance_count, uint32_t *spare,
                               struct mg_part *part, struct mg_why *why) {
    struct mg_why numbers;
    struct mg_part known;
    if (!is_planned(die)) return refused(MG_EMPTY_HANDLE, why);
    if (!spare || !is_array(places, place_count) || !is_array(names, name_count) || !is_array(blocks, block_count)
        || !is_array(balances, balance_count))
        return refused(MG_NULL_POINTER, why);
    return flash_planned_checkpoint(die, ARRAY(places), place_count, ARRAY(names), name_count, ARRAY(blocks), block_count,
                                    ARRAY(balances), balance_count, spare, part ? part : &known, why ? why : &numbers);
}

uint32_t mg_planned_resume(mg_planned *die, const struct mg_plan *plan, const struct mg_task *tasks, const struct mg_terms *terms,
                           size_t count, uint32_t longest, const struct mg_cell *places, size_t place_count, const struct mg_name *names,
                           size_t name_count, const struct mg_block *blocks, size_t block_count, const uint32_t *balances,
                           size_t balance_count, uint32_t spare, const struct mg_part *part, struct mg_unresumed *why) {
    struct mg_unresumed numbers;
    uint32_t handle = unkept(die);
    if (handle) return unresumed(handle, why);
    if (!plan || !is_array(tasks, count) || !is_array(terms, count) || !is_array(places, place_count) || !is_array(names, name_count)
        || !is_array(blocks, block_count) || !is_array(balances, balance_count))
        return unresumed(MG_NULL_POINTER, why);
    struct mg_part last = {1, plan->blocks};
    return flash_planned_resume(die, plan, ARRAY(tasks), count, ARRAY(terms), count, longest, ARRAY(places), place_count, ARRAY(names),
                                name_count, ARRAY(blocks), block_count, ARRAY(balances), balance_count, spare, part ? part : &last,
                                why ? why : &numbers);
}

uint32_t mg_planned_checkpoint_void(mg_planned *die) {
    if (!is_planned(die)) return MG_EMPTY_HANDLE;
    flash_planned_checkpoint_void(die);
    return MG_OK;
}

uint32_t mg_mount_end_planned(mg_mount *mount, const struct mg_terms *terms, size_t count, uint32_t longest, const struct mg_name *names,
                              size_t name_count, mg_planned *die, struct mg_unresumed *why) {
    struct mg_unresumed numbers;
    if (!is_mounting(mount)) return unresumed(MG_EMPTY_HANDLE, why);
    uint32_t handle = unkept(die);
    if (handle) return unresumed(handle, why);
    if (!is_array(terms, count) || !is_array(names, name_count)) return unresumed(MG_NULL_POINTER, why);
    return flash_mount_end_planned(mount, ARRAY(terms), count, longest, ARRAY(names), name_count, die, why ? why : &numbers);
}

uint64_t mg_planned_serial(const mg_planned *die) {
    if (!is_planned(die)) return 0;
    mg_planned own = *die;
    return flash_planned_serial(&own);
}

uint32_t mg_planned_part_block(const mg_planned *die, uint32_t block, uint32_t *part_block) {
    if (!is_planned(die)) return MG_EMPTY_HANDLE;
    if (!part_block) return MG_NULL_POINTER;
    mg_planned own = *die;
    *part_block = flash_planned_part_block(&own, block);
    return MG_OK;
}
