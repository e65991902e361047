/* What crates/flash_c exports, under the names that it has there. edge.c alone calls it: it sees to what these take for
 * granted, that no pointer is null, and that a handle is full, or empty for what fills it. */
#ifndef PROVED_H
#define PROVED_H
#include "maulgreen.h"

uint32_t flash_version(void);
uint32_t flash_refusal_name(uint32_t refusal, uint8_t *text, size_t count);
uint32_t flash_plan_bound(const struct mg_plan *plan, const struct mg_task *tasks, size_t count);
uint32_t flash_plan_test(const struct mg_plan *plan, const struct mg_task *tasks, size_t count, struct mg_load *load);
uint32_t flash_new(mg_die *die, const struct mg_plan *plan, const struct mg_task *tasks, size_t count);
void flash_free(mg_die *die);
uint32_t flash_submit(mg_die *die, uint32_t caller, uint32_t task, uint32_t release, uint32_t due, const struct mg_op *ops,
                      size_t count, uint32_t *number, struct mg_why *why);
uint32_t flash_collect(mg_die *die, uint32_t caller, uint32_t task, uint32_t release, uint32_t due, uint32_t *number,
                       struct mg_why *why);
uint32_t flash_begin(mg_die *die, uint32_t caller, struct mg_call *call);
uint32_t flash_end(mg_die *die, uint32_t ok, const struct mg_name *name, struct mg_reply *reply, struct mg_waived *waived,
                   size_t count);
uint32_t flash_reserve(mg_die *die, uint32_t slots);
uint32_t flash_reserve_jobs(mg_die *die, uint32_t jobs, uint32_t operations);
uint32_t flash_renew(mg_die *die, struct mg_why *why);
uint32_t flash_renew_giving_back(mg_die *die, struct mg_why *why);
uint32_t flash_checkpoint(mg_die *die, struct mg_cell *places, size_t place_count, struct mg_name *names, size_t name_count,
                          struct mg_block *blocks, size_t block_count, uint32_t *balances, size_t balance_count,
                          uint32_t *spare, struct mg_part *part, struct mg_why *why);
uint32_t flash_resume(mg_die *die, const struct mg_plan *plan, const struct mg_task *tasks, size_t count,
                      const struct mg_cell *places, size_t place_count, const struct mg_name *names, size_t name_count,
                      const struct mg_block *blocks, size_t block_count, const uint32_t *balances, size_t balance_count,
                      uint32_t spare, const struct mg_part *part, struct mg_why *why);
void flash_checkpoint_void(mg_die *die);
uint32_t flash_mount_new(mg_mount *mount, const struct mg_plan *plan, const struct mg_task *tasks, size_t count);
void flash_mount_free(mg_mount *mount);
uint32_t flash_mount_next(mg_mount *mount, struct mg_step *step);
uint32_t flash_mount_tell(mg_mount *mount, const struct mg_label *labels, size_t count, struct mg_why *why);
uint32_t flash_mount_done(mg_mount *mount);
uint64_t flash_mount_calls_left(mg_mount *mount);
uint32_t flash_mount_place(mg_mount *mount, uint32_t page, struct mg_cell *place);
uint32_t flash_mount_end(mg_mount *mount, const struct mg_name *names, size_t count, mg_die *die);
uint32_t flash_mount_end_planned(mg_mount *mount, const struct mg_terms *terms, size_t term_count, uint32_t longest,
                                 const struct mg_name *names, size_t count, mg_planned *die, struct mg_unresumed *why);
uint64_t flash_serial(mg_die *die);
uint32_t flash_part_block(mg_die *die, uint32_t block);
uint32_t flash_spares_new(mg_spares *spares, const struct mg_plan *plan, uint32_t blocks, const uint32_t *bad, size_t count);
uint32_t flash_spares_power_up(mg_spares *spares, const struct mg_plan *plan, uint32_t blocks, const uint32_t *bad, size_t count);
void flash_spares_free(mg_spares *spares);
uint32_t flash_spares_next(mg_spares *spares, struct mg_move *move);
uint32_t flash_spares_tell(mg_spares *spares, const struct mg_label *labels, size_t count);
uint32_t flash_spares_done(mg_spares *spares, uint32_t how);
uint32_t flash_spares_program_failed(mg_spares *spares, uint32_t number, uint32_t page);
uint32_t flash_spares_erase_failed(mg_spares *spares, uint32_t number);
uint32_t flash_spares_block(mg_spares *spares, uint32_t number, uint32_t *block);
uint32_t flash_spares_use(mg_spares *spares, uint32_t block, uint32_t *use, uint32_t *number);
uint32_t flash_spares_left(mg_spares *spares);
uint32_t flash_now(mg_die *die);
uint64_t flash_len(mg_die *die);
uint64_t flash_records(mg_die *die);
uint32_t flash_place(mg_die *die, uint32_t page, struct mg_cell *place);
uint32_t flash_entries(mg_die *die, uint32_t from, struct mg_entry *entries, size_t count);
uint32_t flash_waived(mg_die *die, uint32_t entry, struct mg_waived *waived, size_t count);
uint32_t flash_job(mg_die *die, uint32_t number, struct mg_job_head *job);
uint32_t flash_caller(mg_die *die, uint32_t number, uint32_t *caller);
uint32_t flash_outcome(mg_die *die, uint32_t job, struct mg_job_outcome *outcome, struct mg_name *reads, size_t count);
uint32_t flash_worst(mg_die *die, struct mg_worst_job *worst);
uint32_t flash_overdue(mg_die *die, struct mg_overdue_job *overdue);
uint32_t flash_certificate(mg_die *die, struct mg_cert *certificate, uint32_t *jobs, size_t count);
uint32_t flash_rows(mg_die *die, struct mg_row *rows, size_t count, uint32_t *total);
uint32_t flash_planned_new(mg_planned *die, const struct mg_plan *plan, const struct mg_task *tasks, size_t count,
                           const struct mg_terms *terms, size_t term_count, uint32_t longest, struct mg_unasked *why);
void flash_planned_free(mg_planned *die);
uint32_t flash_planned_ask(mg_planned *die, uint32_t burst, uint32_t caller, uint32_t task, const struct mg_op *ops, size_t count,
                           struct mg_taken *taken, struct mg_unasked *why);
uint32_t flash_planned_begin(mg_planned *die, uint32_t caller, struct mg_call *call);
uint32_t flash_planned_end(mg_planned *die, uint32_t ok, const struct mg_name *name, struct mg_reply *reply,
                           struct mg_waived *waived, size_t count);
uint64_t flash_planned_clock(mg_planned *die);
uint32_t flash_planned_life(mg_planned *die, struct mg_life *life);
uint32_t flash_planned_waiting(mg_planned *die, uint32_t task, uint32_t *operations);
uint32_t flash_planned_job(mg_planned *die, uint32_t number, struct mg_job_head *job);
uint32_t flash_planned_outcome(mg_planned *die, uint32_t job, struct mg_job_outcome *outcome, struct mg_name *reads, size_t count);
uint32_t flash_planned_place(mg_planned *die, uint32_t page, struct mg_cell *place);
uint32_t flash_planned_checkpoint(mg_planned *die, struct mg_cell *places, size_t place_count, struct mg_name *names, size_t name_count,
                                  struct mg_block *blocks, size_t block_count, uint32_t *balances, size_t balance_count,
                                  uint32_t *spare, struct mg_part *part, struct mg_why *why);
uint32_t flash_planned_resume(mg_planned *die, const struct mg_plan *plan, const struct mg_task *tasks, size_t count,
                              const struct mg_terms *terms, size_t term_count, uint32_t longest, const struct mg_cell *places,
                              size_t place_count, const struct mg_name *names, size_t name_count, const struct mg_block *blocks,
                              size_t block_count, const uint32_t *balances, size_t balance_count, uint32_t spare,
                              const struct mg_part *part, struct mg_unresumed *why);
void flash_planned_checkpoint_void(mg_planned *die);
uint64_t flash_planned_serial(mg_planned *die);
uint32_t flash_planned_part_block(mg_planned *die, uint32_t block);
uint32_t flash_check(const struct mg_row *rows, size_t row_count, const struct mg_cert *certificate, const uint32_t *jobs,
                     size_t count);
#endif
