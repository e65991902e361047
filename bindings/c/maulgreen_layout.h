/* The size of each struct of maulgreen.h, and where its fields lie: for the compiler to see that it lays them out as the
 * library does (crates/flash_c/src/shapes.rt; .ci/bindings compares the two). A compiler without _Static_assert skips it. */
#ifndef MAULGREEN_LAYOUT_H
#define MAULGREEN_LAYOUT_H
#include "maulgreen.h"

#if defined(__cplusplus) && __cplusplus >= 201103L
#define MG_IS(holds) static_assert(holds, #holds)
#elif defined(__STDC_VERSION__) && __STDC_VERSION__ >= 201112L
#define MG_IS(holds) _Static_assert(holds, #holds)
#else
#define MG_IS(holds) struct mg_layout_isnt_looked_at
#endif
#define MG_SIZE(type, bytes) MG_IS(sizeof(struct type) == (bytes))
#define MG_AT(type, field, bytes) MG_IS(offsetof(struct type, field) == (bytes))

MG_SIZE(mg_die, sizeof(void *));
MG_SIZE(mg_mount, sizeof(void *));
MG_SIZE(mg_planned, sizeof(void *));
MG_SIZE(mg_spares, sizeof(void *));
MG_SIZE(mg_name, 16);
MG_SIZE(mg_why, 8);
MG_AT(mg_why, first, 0);
MG_AT(mg_why, second, 4);
MG_SIZE(mg_plan, 24);
MG_AT(mg_plan, blocks, 0);
MG_AT(mg_plan, pages, 4);
MG_AT(mg_plan, erase_slots, 8);
MG_AT(mg_plan, logical, 12);
MG_AT(mg_plan, alpha, 16);
MG_AT(mg_plan, common, 20);
MG_SIZE(mg_task, 20);
MG_AT(mg_task, cap, 0);
MG_AT(mg_task, period, 4);
MG_AT(mg_task, collect_period, 8);
MG_AT(mg_task, work, 12);
MG_AT(mg_task, writes, 16);
MG_SIZE(mg_load, 16);
MG_AT(mg_load, demand, 0);
MG_AT(mg_load, common, 8);
MG_SIZE(mg_op, 24);
MG_AT(mg_op, kind, 0);
MG_AT(mg_op, page, 4);
MG_AT(mg_op, name, 8);
MG_SIZE(mg_call, 52);
MG_AT(mg_call, kind, 0);
MG_AT(mg_call, block, 4);
MG_AT(mg_call, page, 8);
MG_AT(mg_call, last, 12);
MG_AT(mg_call, slot, 16);
MG_AT(mg_call, act, 20);
MG_AT(mg_call, job, 24);
MG_AT(mg_call, logical, 28);
MG_AT(mg_call, name, 32);
MG_AT(mg_call, erases, 48);
MG_SIZE(mg_reply, 44);
MG_AT(mg_reply, slot, 0);
MG_AT(mg_reply, act, 4);
MG_AT(mg_reply, job, 8);
MG_AT(mg_reply, page, 12);
MG_AT(mg_reply, finished, 16);
MG_AT(mg_reply, waived, 20);
MG_AT(mg_reply, caller, 24);
MG_AT(mg_reply, name, 28);
MG_SIZE(mg_waived, 8);
MG_AT(mg_waived, job, 0);
MG_AT(mg_waived, given, 4);
MG_SIZE(mg_cell, 8);
MG_AT(mg_cell, block, 0);
MG_AT(mg_cell, page, 4);
MG_SIZE(mg_block, 8);
MG_AT(mg_block, filled, 0);
MG_AT(mg_block, erases, 4);
MG_SIZE(mg_part, 16);
MG_AT(mg_part, serial, 0);
MG_AT(mg_part, aside, 8);
MG_SIZE(mg_entry, 20);
MG_AT(mg_entry, what, 0);
MG_AT(mg_entry, caller, 4);
MG_AT(mg_entry, job, 8);
MG_AT(mg_entry, at, 12);
MG_AT(mg_entry, waived, 16);
MG_SIZE(mg_job_head, 16);
MG_AT(mg_job_head, collects, 0);
MG_AT(mg_job_head, task, 4);
MG_AT(mg_job_head, release, 8);
MG_AT(mg_job_head, due, 12);
MG_SIZE(mg_job_outcome, 24);
MG_AT(mg_job_outcome, lateness, 0);
MG_AT(mg_job_outcome, state, 8);
MG_AT(mg_job_outcome, completion, 12);
MG_AT(mg_job_outcome, given, 16);
MG_AT(mg_job_outcome, reads, 20);
MG_SIZE(mg_worst_job, 16);
MG_AT(mg_worst_job, lateness, 0);
MG_AT(mg_worst_job, job, 8);
MG_SIZE(mg_overdue_job, 16);
MG_AT(mg_overdue_job, late_by, 0);
MG_AT(mg_overdue_job, job, 8);
MG_AT(mg_overdue_job, due, 12);
MG_SIZE(mg_cert, 20);
MG_AT(mg_cert, job, 0);
MG_AT(mg_cert, start, 4);
MG_AT(mg_cert, due, 8);
MG_AT(mg_cert, completion, 12);
MG_AT(mg_cert, jobs, 16);
MG_SIZE(mg_row, 24);
MG_AT(mg_row, number, 0);
MG_AT(mg_row, release, 4);
MG_AT(mg_row, due, 8);
MG_AT(mg_row, work, 12);
MG_AT(mg_row, done, 16);
MG_AT(mg_row, completion, 20);
MG_SIZE(mg_label, 16);
MG_AT(mg_label, serial, 0);
MG_AT(mg_label, page, 8);
MG_AT(mg_label, erases, 12);
MG_SIZE(mg_terms, 28);
MG_AT(mg_terms, period, 0);
MG_AT(mg_terms, deadline, 4);
MG_AT(mg_terms, held, 8);
MG_AT(mg_terms, work, 12);
MG_AT(mg_terms, writes, 16);
MG_AT(mg_terms, collect_period, 20);
MG_AT(mg_terms, collect_deadline, 24);
MG_SIZE(mg_taken, 32);
MG_AT(mg_taken, release, 0);
MG_AT(mg_taken, due, 8);
MG_AT(mg_taken, waits, 16);
MG_AT(mg_taken, first, 20);
MG_AT(mg_taken, jobs, 24);
MG_SIZE(mg_unasked, 16);
MG_AT(mg_unasked, next, 0);
MG_AT(mg_unasked, number, 8);
MG_SIZE(mg_life, 16);
MG_AT(mg_life, first, 0);
MG_AT(mg_life, slots, 8);
MG_AT(mg_life, now, 12);
MG_SIZE(mg_unresumed, 12);
MG_AT(mg_unresumed, first, 0);
MG_AT(mg_unresumed, second, 4);
MG_AT(mg_unresumed, third, 8);
MG_SIZE(mg_step, 32);
MG_AT(mg_step, serial, 0);
MG_AT(mg_step, kind, 8);
MG_AT(mg_step, block, 12);
MG_AT(mg_step, page, 16);
MG_AT(mg_step, logical, 20);
MG_AT(mg_step, last, 24);
MG_AT(mg_step, erases, 28);
MG_SIZE(mg_move, 16);
MG_AT(mg_move, kind, 0);
MG_AT(mg_move, block, 4);
MG_AT(mg_move, page, 8);
MG_AT(mg_move, from, 12);
#undef MG_IS
#undef MG_SIZE
#undef MG_AT
#endif
