/* What each refusal means, in a line. */
#include "maulgreen.h"

const char *mg_version_text(void) {
#ifdef MG_UNPROVED
    return "2.0, not proved";
#else
    return "2.0";
#endif
}

const char *mg_refusal_text(uint32_t refusal) {
    switch (refusal) {
    case MG_OK: return "it is as asked";
    case MG_NO_MEMORY: return "memory was asked for and not had; the call may be made again";
    case MG_BAD_SHAPE: return "blocks, pages or erase slots out of their limits";
    case MG_BAD_PLAN: return "another number of a plan out of its limits, or the plan's bound isn't met";
    case MG_UNKNOWN_TASK: return "no task of this number";
    case MG_EMPTY_JOB: return "a job without an operation";
    case MG_TOO_MANY_OPS: return "a job of more than 64 operations";
    case MG_BAD_PAGE: return "an operation on a page that the die doesn't have";
    case MG_RELEASE_PAST: return "a release below the present slot";
    case MG_BAD_DUE: return "a due that isn't above its release, or is above 1,048,576";
    case MG_JOBS_FULL: return "65,536 jobs and collections were accepted since the die was new or was renewed";
    case MG_NO_TOKENS: return "a job of more writes than its task has tokens";
    case MG_COLLECTOR_BUSY: return "the task has a collection that is neither done nor waived";
    case MG_CLOCK_END: return "the present slot is 1,048,576: the die is to be renewed";
    case MG_DEVICE_FAULT: return "the device failed in this slot, or gave another name than its cell was programmed with";
    case MG_DIE_STOPPED: return "the device failed before; the die answers questions, takes memory, and nothing else";
    case MG_UNKNOWN_JOB: return "no job or collection of this number";
    case MG_BEGUN: return "a slot has begun, and is to be ended first";
    case MG_NOT_BEGUN: return "no slot has begun";
    case MG_BAD_KIND: return "an operation whose kind is above 2";
    case MG_NOTHING_DONE: return "no job or collection is done yet";
    case MG_ROWS_NOT_RISING: return "rows whose numbers don't rise";
    case MG_NOT_QUIET: return "a job or collection is neither done nor waived";
    case MG_WORN_OUT: return "a block was erased more than 4,293,918,718 times";
    case MG_EMPTY_HANDLE: return "the handle has no die, mount or table";
    case MG_FULL_HANDLE: return "the handle has a die, mount or table, which would be lost";
    case MG_NULL_POINTER: return "a pointer is null that may not be";
    case MG_NOT_TAKEN: return "the program didn't take a piece of a report";
    case MG_NONE_OVERDUE: return "no released job or collection that waits is due by now, or a fault has stopped the die";
    case MG_WRONG_STEP: return "the mount or table needs something else next, or nothing comes any more";
    case MG_TOO_MANY_CELLS: return "more cells of a block were told than it has";
    case MG_BAD_LABEL: return "a label of a page that the plan doesn't have, or with a serial of 2^63 or more";
    case MG_CHECKPOINT_STANDS: return "the die was resumed from a checkpoint that isn't void yet, and the slot would spend it";
    case MG_CERT_EMPTY: return "the certificate lists no job";
    case MG_CERT_NOT_RISING: return "a listed number isn't above the one before";
    case MG_CERT_UNKNOWN_JOB: return "a listed number has no row";
    case MG_CERT_UNFINISHED: return "a listed job isn't done, or no slot carried it";
    case MG_CERT_EARLY_RELEASE: return "a listed job was released before the certificate's start";
    case MG_CERT_LATE_DUE: return "a listed job is due after the certificate's due";
    case MG_CERT_WRONG_SUM: return "the work of the listed jobs isn't the number of slots from start to completion";
    case MG_OTHER_SHAPE: return "the checkpoint has another number of logical pages, blocks or tasks than the plan";
    case MG_OVERFULL: return "more pages are programmed in a block than it has";
    case MG_SECOND_OPEN: return "two blocks have programmed and free pages";
    case MG_UNPROGRAMMED: return "a page lies in a cell that isn't programmed, or isn't there";
    case MG_ABOVE_CAP: return "a balance is above its task's cap";
    case MG_OTHER_SUM: return "the accounts share out another number of pages than are free";
    case MG_SHARED_CELL: return "a page lies in the cell of a page before it";
    case MG_TOO_MANY_WRITES: return "more writes than the task may ask for in a period";
    case MG_TOO_SOON: return "with what the task asked for in its last period it would be too much";
    case MG_WAITS_ALREADY: return "it would be due after the life, and an ask of the task waits for the next one already";
    case MG_LIFE_END: return "it would be due after the life";
    case MG_NO_LIFE: return "no number of slots up to the longest is a life of this plan";
    case MG_SHORT_LIFE: return "the longest life that is allowed is shorter than a task's deadline";
    case MG_BAD_TERMS: return "terms out of their limits, or of another number of tasks";
    case MG_TOO_MUCH_DEMAND: return "more may be asked than there are slots, in the long run or in some interval";
    case MG_TOO_FEW_PAGES: return "a task's collections give less than it writes, or its cap doesn't cover it";
    case MG_ASK_WAITS: return "an ask waits for the next life, and would be lost";
    case MG_NOT_STOCKED: return "a task lacks more to its cap than alpha pages and what it may write in a period";
    case MG_NO_SPARE: return "a block failed and no spare one is left; what was programmed before can still be read";
    case MG_NO_BLOCK: return "no block has this number, or a block doesn't have this page";
    default: return "no refusal of this number";
    }
}
