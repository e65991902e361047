/* A die of a proved flash translation layer with deadlines, for C and C++. bindings/README.md is the way in.
 *
 * HANDLES. One `struct mg_die` is one die. `{0}` is empty; mg_new, mg_resume and mg_mount_end fill an empty one, mg_free empties
 * it, and nothing else may look inside. A handle is never copied: both copies would free the die. Every call of an empty handle, or
 * of none, is answered: MG_EMPTY_HANDLE, or 0 by mg_now, mg_len, mg_records, mg_serial and mg_mount_calls_left; mg_free does nothing
 * then. What fills a handle answers MG_FULL_HANDLE of a full one. So it is with `struct mg_mount`, mg_mount_new and mg_mount_free, and
 * with `struct mg_planned`, which mg_planned_new, mg_planned_resume and mg_mount_end_planned fill, and mg_planned_free; mg_planned_clock
 * and mg_planned_serial answer 0 of an empty one. So it is with `struct mg_spares`, mg_spares_new, mg_spares_power_up and
 * mg_spares_free; mg_spares_left answers 0 of an empty one.
 *
 * THREADS. Several dies share nothing but the heap. A die may be made on one thread and used on another. A call that takes a
 * `const` handle is a question: it reads the die, and several may run beside each other. While any other call of a die runs,
 * no other call of that die may, a question neither: that is for the program to see to, by a lock where it needs one. The
 * heap is to allow calls from several threads if several use the library.
 *
 * POINTERS. That of an array of no items may be null, `why` and `number` where they aren't wanted, and `part` of a part without
 * labels. Any other null pointer
 * is refused with MG_NULL_POINTER, before all else but the handle. Arrays go in as pointer and count. They come out into the
 * caller's array, as far as there is room: items[0..count) are written, and how many there are is reported beside them.
 *
 * ANSWERS. Each function that answers MG_OK or the number of a refusal leaves the die as it was where it is refused, but for
 * MG_DEVICE_FAULT of mg_end, and writes through none of its pointers then but `why`. `why` gets the numbers of a refusal: it
 * is written by each refusal of a function that has it, and by nothing else.
 *
 * TIME is counted in slots, from 0. In each slot the die does at most one call of the device. Jobs and collections have a
 * release, the first slot that may carry them, and a due, the slot before which they are to be done. The head, the one of
 * those released that is due first (of equal ones, accepted first), has the slot.
 *
 * PAGES. A page has sixteen bytes here. They are the name of a payload of any size, which the driver moves: a digest of
 * it, or the number of a buffer that is kept in the page's spare area.
 *
 * THE CHIP is erased before mg_new. It has to allow that several blocks are in erase at once, at most one a task, each
 * suspended after any of its slots; pages of a block are programmed in rising order.
 *
 * THE PROCESSOR. The archive for x86-64 is for x86-64-v2 (SSE4.2, any since 2009): on a plainer one, QEMU's default among
 * them, a program ends with an illegal instruction. There is one for AArch64, too. */
#ifndef MAULGREEN_H
#define MAULGREEN_H
#include <stddef.h>
#include <stdint.h>
#ifdef __cplusplus
extern "C" {
#endif

/* The version of this interface. The major number changes where something that was there changes, the minor one where
 * something is added. So a program that was compiled with this header works with a library of the same major number whose
 * minor one isn't below: MG_FITS(mg_version()). */
#define MG_VERSION_MAJOR 2u
#define MG_VERSION_MINOR 0u
#define MG_VERSION (MG_VERSION_MAJOR << 16 | MG_VERSION_MINOR)
#define MG_FITS(version) ((version) >> 16 == MG_VERSION_MAJOR && ((version) & 0xFFFFu) + 1u > MG_VERSION_MINOR)

/* Refusals. In brackets, what `why` has; first and second are 0 else. */
enum {
    MG_OK = 0,
    MG_NO_MEMORY = 1,         /* memory was asked for and not had; the call may be made again */
    MG_BAD_SHAPE = 2,         /* blocks, pages or erase slots out of their limits */
    MG_BAD_PLAN = 3,          /* another number of a plan out of its limits, or the plan's bound isn't met */
    MG_UNKNOWN_TASK = 5,
    MG_EMPTY_JOB = 6,         /* a job without an operation */
    MG_TOO_MANY_OPS = 7,      /* a job of more than 64 operations */
    MG_BAD_PAGE = 8,          /* an operation on a page that the die doesn't have [first: the first such page] */
    MG_RELEASE_PAST = 9,      /* a release below the present slot [first: the present slot] */
    MG_BAD_DUE = 10,          /* a due that isn't above its release, or is above 1,048,576 */
    MG_JOBS_FULL = 11,        /* 65,536 jobs and collections were accepted since the die was new or was renewed */
    MG_NO_TOKENS = 12,        /* a job of more writes than its task has tokens [first: it has; second: it needs] */
    MG_COLLECTOR_BUSY = 13,   /* the task has a collection that is neither done nor waived */
    MG_CLOCK_END = 14,        /* the present slot is 1,048,576 */
    MG_DEVICE_FAULT = 15,     /* the device failed in this slot, or gave another name than its cell was programmed with */
    MG_DIE_STOPPED = 16,      /* the device failed before; the die answers questions, takes memory, and nothing else */
    MG_UNKNOWN_JOB = 17,      /* no job or collection of this number */
    MG_BEGUN = 100,           /* a slot has begun, and is to be ended first */
    MG_NOT_BEGUN = 101,       /* no slot has begun */
    MG_BAD_KIND = 102,        /* an operation whose kind is above 2 */
    MG_NOTHING_DONE = 103,    /* no job or collection is done yet */
    MG_ROWS_NOT_RISING = 104, /* rows whose numbers don't rise */
    MG_NOT_QUIET = 105,       /* a job or collection is neither done nor waived [first: the one that is carried next] */
    MG_WORN_OUT = 106,        /* a block was erased more than 4,293,918,718 times [first: the first such block] */
    MG_EMPTY_HANDLE = 107,    /* the handle has no die, mount or table */
    MG_FULL_HANDLE = 108,     /* the handle has a die, mount or table, which would be lost */
    MG_NULL_POINTER = 109,    /* a pointer is null that may not be */
    MG_NOT_TAKEN = 110,       /* the program didn't take a piece of a report */
    MG_NONE_OVERDUE = 111, /* no released work that waits is due by now; or a fault has stopped the die */
    MG_WRONG_STEP = 112,      /* the mount or table needs something else next, or nothing comes any more */
    MG_TOO_MANY_CELLS = 113,  /* more cells of a block were told than it has */
    MG_BAD_LABEL = 114,       /* a label of a page that the plan doesn't have, or with a serial of 2^63 or more [first: the
                                 first such cell] */
    MG_CHECKPOINT_STANDS = 115, /* the die was resumed from a checkpoint that isn't void yet, and the slot would spend it */
    /* what is wrong with a certificate first */
    MG_CERT_EMPTY = 201,         /* it lists no job */
    MG_CERT_NOT_RISING = 202,    /* a listed number isn't above the one before */
    MG_CERT_UNKNOWN_JOB = 203,   /* a listed number has no row */
    MG_CERT_UNFINISHED = 204,    /* a listed job isn't done, or no slot carried it */
    MG_CERT_EARLY_RELEASE = 205, /* a listed job was released before the certificate's start */
    MG_CERT_LATE_DUE = 206,      /* a listed job is due after the certificate's due */
    MG_CERT_WRONG_SUM = 207,     /* the work of the listed jobs isn't the number of slots from start to completion */
    /* what is wrong with a checkpoint first */
    MG_OTHER_SHAPE = 301,        /* it has another number of logical pages, blocks or tasks than the plan */
    MG_OVERFULL = 302,           /* more pages are programmed in a block than it has [first: the first such block] */
    MG_SECOND_OPEN = 303,        /* two blocks have programmed and free pages [first: the second of them] */
    MG_UNPROGRAMMED = 304,       /* a page lies in a cell that isn't programmed, or isn't there [first: the first such page] */
    MG_ABOVE_CAP = 305,          /* a balance is above its task's cap [first: the first such task] */
    MG_OTHER_SUM = 306,          /* the accounts share out another number of pages than are free [first: they, and
                                       4,294,967,295 where they are more; second: free] */
    MG_SHARED_CELL = 307,        /* a page lies in the cell of a page before it [first: the first such page] */
    /* of a die that keeps its plan; in brackets, what `struct mg_unasked` has */
    MG_TOO_MANY_WRITES = 401,    /* more writes than the task may ask for in a period [number: its most] */
    MG_TOO_SOON = 402,           /* with what the task asked for in its last period it would be too much [next: the first slot
                                    with room for all of it, from the start of the present life] */
    MG_WAITS_ALREADY = 403,      /* it would be due after the life, and an ask of the task waits for the next one already */
    MG_LIFE_END = 404,           /* it would be due after the life; such an ask waits, so none is refused for this */
    MG_NO_LIFE = 405,            /* no number of slots up to `longest` is a life: a collection would be due after its end, or
                                    there aren't numbers for all that may come in it */
    MG_SHORT_LIFE = 406,         /* the longest life that is allowed is shorter than a deadline [number: the first such task] */
    MG_BAD_TERMS = 407,          /* terms out of their limits, or of another number of tasks */
    MG_TOO_MUCH_DEMAND = 408,    /* more may be asked than there are slots, in the long run or in some interval */
    MG_TOO_FEW_PAGES = 409,      /* a task's collections give less than it writes, or its cap doesn't cover it */
    MG_ASK_WAITS = 410,          /* an ask waits for the next life, and would be lost [first: the first such task] */
    MG_NOT_STOCKED = 411,        /* a task has too few pages to go on with: it lacks more to its cap than alpha and what it may write in a
                                    period [first: the first such task; second: it has; third: it needs] */
    /* of a table of spare blocks */
    MG_NO_SPARE = 501,           /* a block failed and no spare one is left: what was programmed before can still be read */
    MG_NO_BLOCK = 502            /* no block has this number, or a block doesn't have this page */
};

/* What a refusal has beside its number. */
struct mg_why { uint32_t first, second; };

/* The name of a refusal's number, as "NoTokens"; "Ok" of 0 and "Unknown" of a number that is none. It goes into
 * text[0..count) with a 0 behind it, as far as there is room; answers its length without the 0, which is at most 16. */
uint32_t mg_refusal_name(uint32_t refusal, char *text, size_t count);

/* What a refusal's number means, in a line: "a job of more writes than its task has tokens". Never null. */
const char *mg_refusal_text(uint32_t refusal);

/* MG_VERSION of the library. */
uint32_t mg_version(void);

/* The same as a text: "2.0"; "2.0, not proved" of a library that was built without a proof. */
const char *mg_version_text(void);

/* ---- What the library asks of the program ------------------------------------------------------------------------
 *
 * libmaulgreen_heap has these three, over malloc, realloc and free. A program with an allocator of its own has them itself,
 * and doesn't link that. `size` is above 0, `align` is 1, 2, 4, 8 or 16, and a block is aligned to it. */

void *mg_alloc(size_t size, size_t align);                          /* null where there is no room */
void *mg_realloc(void *at, size_t kept, size_t size, size_t align); /* the first `kept` bytes stay; where there is no room,
                                                                       null, and the block stays */
void mg_dealloc(void *at);

/* ---- Plans ------------------------------------------------------------------------------------------------------- */

struct mg_plan {
    uint32_t blocks;      /* 2 to 1,024 */
    uint32_t pages;       /* of a block: 2 to 256 */
    uint32_t erase_slots; /* slots that the erase of a block takes: 1 to 64 */
    uint32_t logical;     /* logical pages, numbered from 0: at least 1 */
    uint32_t alpha;       /* the most pages that a collection gives its task: 1 to `pages` */
    uint32_t common;      /* a multiple of all periods, 1 to 1,048,576 slots; 0: a plan without times */
};

/* A task, numbered from 0 by its place; a die has 1 to 16. */
struct mg_task {
    uint32_t cap;            /* the most free pages that it may own tokens for: at least 1 */
    /* the rest isn't looked at in a plan without times */
    uint32_t period;         /* in slots, 1 to 1,048,576: its jobs come at most once in a period, and have as long */
    uint32_t collect_period; /* its collections come at each multiple of this, and have as long: 1 to 1,048,576 */
    uint32_t work;           /* the most operations of a job: 1 to 64 */
    uint32_t writes;         /* the most writes among these: 0 to `work` */
};

/* Whether mg_new takes a plan: with K tasks and fmax = alpha - 1 + K * (pages - alpha) + the sum of the caps, the die has
 * more than fmax / pages + K blocks (rounded down), and, with `closed` for how many more, fewer than
 * closed * (pages - alpha + 1) logical pages. The times of a plan that has them are within their limits, too; whether they fit
 * is for mg_plan_test. The first that stands: NO_MEMORY, since the tasks are copied first; BAD_SHAPE; BAD_PLAN. */
uint32_t mg_plan_bound(const struct mg_plan *plan, const struct mg_task *tasks, size_t count);

/* The most slots that the tasks ask for in each `common` ones. */
struct mg_load { uint64_t demand; uint32_t common; };

/* Tests a plan with times: where it passes, nothing that it lets its tasks ask is refused or late. Refused as
 * mg_plan_bound is; BAD_PLAN also where it has no times, or doesn't pass. */
uint32_t mg_plan_test(const struct mg_plan *plan, const struct mg_task *tasks, size_t count, struct mg_load *load);

/* ---- A die ------------------------------------------------------------------------------------------------------- */

typedef struct mg_die { void *at; } mg_die;

/* Makes a die at slot 0 in an empty handle. Its chip has to be erased: no page is programmed, no block is in erase.
 * Refused as mg_plan_bound is, and with NO_MEMORY after that, too. The handle stays empty then. */
uint32_t mg_new(mg_die *die, const struct mg_plan *plan, const struct mg_task *tasks, size_t count);

/* Frees a die, and leaves its handle empty. Of an empty handle, or of none, it does nothing. */
void mg_free(mg_die *die);

struct mg_name { uint8_t bytes[16]; }; /* sixteen bytes 0xFF: a page that was never written, or was trimmed since */

/* A trimmed page reads blank. A loss of power may undo that: after a mount such a page may have an earlier write again, unless the
 * driver keeps notes of trims (MG_CALL_TRIM). */
enum { MG_READ = 0, MG_WRITE = 1, MG_TRIM = 2 };
struct mg_op {
    uint32_t kind;          /* 0 to 2 */
    uint32_t page;          /* a logical page */
    struct mg_name name; /* what a write writes; not looked at else */
};

/* Accepts a job of 1 to 64 operations, done in order, one a slot, and reports its number: 0, 1, 2, .. in order of acceptance,
 * jobs and collections counted together. `caller` is any number of yours, which the log keeps. A write takes a token of the
 * task; collections give tokens.
 *
 * The first that stands: BAD_KIND, among the first 65 operations; DIE_STOPPED; BEGUN, where a slot has begun and `release`
 * isn't above it; UNKNOWN_TASK; EMPTY_JOB; TOO_MANY_OPS; BAD_PAGE; RELEASE_PAST; BAD_DUE; JOBS_FULL; NO_TOKENS; NO_MEMORY.
 *
 * While a slot has begun, a job or collection whose release is above it is answered at once, by the log without that slot,
 * and stands before it: as if what the slot waives were not waived yet. */
uint32_t mg_submit(mg_die *die, uint32_t caller, uint32_t task, uint32_t release, uint32_t due,
                      const struct mg_op *ops, size_t count, uint32_t *number, struct mg_why *why);

/* Accepts a collection for the task, and reports its number: it copies what is valid out of the block that has the fewest
 * valid pages, erases it, and gives the task up to `alpha` tokens. A collection that comes first while at least `alpha`
 * pages are spare is waived: it does nothing, and gives its tokens.
 *
 * The first that stands: DIE_STOPPED; BEGUN, as for mg_submit; UNKNOWN_TASK; RELEASE_PAST; BAD_DUE; COLLECTOR_BUSY;
 * JOBS_FULL; NO_MEMORY. */
uint32_t mg_collect(mg_die *die, uint32_t caller, uint32_t task, uint32_t release, uint32_t due, uint32_t *number,
                       struct mg_why *why);

/* ---- Slots: begin, do the call, end ------------------------------------------------------------------------------ */

enum { MG_CALL_NONE = 0, MG_CALL_READ = 1, MG_CALL_PROGRAM = 2, MG_CALL_ERASE = 3, MG_CALL_TRIM = 4 };
enum { MG_IDLE = 0, MG_DID_READ = 1, MG_DID_WRITE = 2, MG_DID_TRIM = 3, MG_COPY_READ = 4,
       MG_COPY_PROGRAM = 5, MG_ERASE = 6 };

#define MG_NO_PAGE UINT32_MAX

/* What the device is to do, once:
 *   MG_CALL_NONE     nothing
 *   MG_CALL_READ     read the cell (block, page), whose payload has to have this name. For MG_COPY_READ keep it until the
 *                       next call for the same collection, whichever that is: it programs the payload elsewhere; or, where
 *                       the page was written or trimmed meanwhile, it reads another page or erases, and the payload isn't
 *                       needed any more. Else it is a job's read
 *   MG_CALL_PROGRAM  program the cell (block, page), the next free one of its block, with the payload of this name
 *   MG_CALL_ERASE    do one slot of the erase of `block`; `last` is 1 in its last one, which frees the block's pages
 *   MG_CALL_TRIM     the slot trims the page `logical`, for which the chip does nothing. A driver that keeps a record of trims
 *                    writes it now: where it can't, `ok` of mg_end is 0, and the page wasn't trimmed */
struct mg_call {
    uint32_t kind;          /* MG_CALL_.. */
    uint32_t block, page;
    uint32_t last;
    uint32_t slot;          /* the slot that has begun */
    uint32_t act, job;      /* for what (MG_IDLE ..), and for which job or collection; 0 where idle */
    uint32_t logical;       /* the logical page that is read, written, trimmed or copied; MG_NO_PAGE in an erase and where idle */
    struct mg_name name;
    uint32_t erases;        /* of MG_CALL_PROGRAM how often the block was erased so far, as the die counts: for a label; 0 else */
};

/* Begins the present slot, and reports the one call of the device that it needs. The first that stands: DIE_STOPPED; BEGUN;
 * CLOCK_END; CHECKPOINT_STANDS, where the call would be a program, a slot of an erase or a trim, of a die that mg_resume made and
 * of which mg_checkpoint_void hasn't been called; NO_MEMORY, never while slots are reserved: nothing has begun then. Every slot that
 * has begun is to be ended.
 * `caller` is any number of yours, which the log keeps. */
uint32_t mg_begin(mg_die *die, uint32_t caller, struct mg_call *call);

struct mg_reply {
    uint32_t slot;
    uint32_t act;           /* MG_IDLE .. */
    uint32_t job;           /* who had the slot; 0 where idle */
    uint32_t page;          /* the logical page, or the block that is erased */
    uint32_t finished;      /* 1: it was the last slot of `job` */
    uint32_t waived;        /* how many collections were waived, at most one a task */
    uint32_t caller;        /* who began the slot */
    struct mg_name name;    /* what was read or written, by a job */
};

/* A collection that was waived, and how many tokens it gave its task. */
struct mg_waived { uint32_t job, given; };

/* Ends the slot that has begun. `ok` is 1 where the device did what it was asked, or the driver has noted a trim; else that has
 * failed. It isn't looked at where nothing was asked (MG_CALL_NONE). `name` is that of what a read gave, and isn't looked at else.
 * Reports what the slot did, and the collections that it waived.
 *
 * The first that stands: DIE_STOPPED; NOT_BEGUN; DEVICE_FAULT, where something was asked and `ok` isn't 1, or a read gave
 * another name than the cell was programmed with. It never answers NO_MEMORY.
 *
 * After a DEVICE_FAULT the die is stopped for good. The slot that failed isn't in the log, nor is what it would have waived:
 * every question is answered by the log before it. */
uint32_t mg_end(mg_die *die, uint32_t ok, const struct mg_name *name, struct mg_reply *reply,
                   struct mg_waived *waived, size_t count);

/* Takes the memory for `slots` later slots: begin and end of these take no memory and are never refused for it. Each slot
 * that is ended uses one of them up, and one that has begun is the first of them; each mg_renew reserves them all again. It may
 * be called at any time, within a slot and of a die that is stopped, too. NO_MEMORY, where nothing changes; it never comes where
 * as many are reserved already. */
uint32_t mg_reserve(mg_die *die, uint32_t slots);

/* Takes the memory for `jobs` later jobs and collections, with `operations` operations in all: while that lasts, mg_submit and
 * mg_collect take no memory and are never refused for it. Each one that is accepted uses one of them up, with as many operations
 * as it has; one of more operations than are left may be refused. Each mg_renew reserves them all again. It may be called at any
 * time, as mg_reserve. NO_MEMORY, where nothing changes; it never comes where as many of both are reserved already.
 *
 * Reserve jobs first, and slots after them: a list that grows gets twice its room, so the other way round takes more. */
uint32_t mg_reserve_jobs(mg_die *die, uint32_t jobs, uint32_t operations);

/* How many bytes a die asks of the heap at most, in all blocks that it has at once: while mg_realloc moves a block, the old one
 * and the new one. With C cells (blocks * pages), K tasks, and K' of them rounded up to 4, 8 or 16:
 *
 *   birth     1,136 + 20 C + 4 logical + 60 blocks + 8 (pages + 1) + 8 (blocks / 64, rounded up) + 53 K + 4 K', and 16 K' more
 *             in a plan with times. It has them from mg_new or mg_resume on. This is exact
 *   reserved  that, and 24 a slot, 108 a job or collection, 37 an operation, and 12 K: with all of it reserved at once, jobs first;
 *             of it 8 a job are given back when it is reserved. It has them until all of that is used up, also in later lives,
 *             in each of which it is reserved again. Exact, too, for 64
 *             and more of each and no fewer slots than jobs; else it says what shorter lists take
 *   life      with nothing reserved, by the end of a life of `slots` slots, `jobs` jobs and `operations` operations in all,
 *             each list having grown to between once and twice its items: 24 to 48 a slot, 112 to 200 a job or collection, 42
 *             an operation, and half of the greatest list, while that is moved. Not tight: alike entries are kept once, callers
 *             only where they change, and each job is taken for a collection that is waived, and that waits while all others
 *             do. Lives of random jobs take more than a third of it
 *   question  what a question takes beside that and gives back before it answers: a report, 60 to 96 a job, or a checkpoint
 *   resume    what mg_resume takes until it has answered: beside a birth, the arrays of the checkpoint
 *
 * Reserve all at once: piece by piece, or slots before jobs, it may take twice as much and more. What the heap itself takes for a
 * block, and what lies unused between blocks, isn't counted; there are 23 blocks from birth on, 24 with times, and 10 more lists. */
struct mg_bytes { uint64_t birth, reserved, life, question, resume; };

/* These, for a plan. Refused as mg_plan_bound is. */
uint32_t mg_memory(const struct mg_plan *plan, const struct mg_task *tasks, size_t count, uint32_t slots, uint32_t jobs,
                   uint32_t operations, struct mg_bytes *bytes);

/* Starts the log anew at a moment at which all that was accepted is done or was waived: the present slot is 0 again, and
 * jobs are numbered from 0. Pages, tokens and erases stay. It takes no memory, and keeps that of the log so far for the one that
 * comes: as many slots, jobs and operations are reserved again as ever were, each the most that was asked for. A die reaches
 * 1,048,576 slots and 65,536 jobs and collections between two renewals.
 *
 * The first that stands: DIE_STOPPED; BEGUN; NOT_QUIET; WORN_OUT. */
uint32_t mg_renew(mg_die *die, struct mg_why *why);

/* As mg_renew, and gives back the memory of the log so far: then the die has as much as it had at its birth, and nothing is
 * reserved, nor by a later mg_renew. */
uint32_t mg_renew_giving_back(mg_die *die, struct mg_why *why);

/* ---- Shutting down and going on ----------------------------------------------------------------------------------- */

/* Where a logical page lies: in this cell, or nowhere if `block` is MG_NOWHERE, and then it is blank. */
#define MG_NOWHERE UINT32_MAX
struct mg_cell { uint32_t block, page; };

/* Of a block how many pages are programmed since its last erase, its first ones, and how often it was erased. */
struct mg_block { uint32_t filled, erases; };

/* What is known of a part with labels ("After a loss of power"): what the label of the next program bears (mg_serial), and the
 * block that stands aside, by the part's number: the plan's number of blocks where it is the last one. */
struct mg_part {
    uint64_t serial;
    uint32_t aside;
};

/* Reports what stands at a moment at which all that was accepted is done or was waived, and leaves the die as it is: by logical
 * page its cell, and its name, which is what was written to it last (sixteen bytes 0xFF where it lies nowhere); by block its
 * counts; by task how many tokens it has; the pages that are spare; and what is known of the part. Give places and names as many
 * items as the plan has logical pages, blocks as it has blocks, balances as it has tasks: what is reported is whole then, and
 * mg_resume takes it. Of a part without labels `part` may be null.
 *
 * The first that stands: DIE_STOPPED; BEGUN; NOT_QUIET; WORN_OUT; NO_MEMORY. */
uint32_t mg_checkpoint(mg_die *die, struct mg_cell *places, size_t place_count, struct mg_name *names,
                          size_t name_count, struct mg_block *blocks, size_t block_count, uint32_t *balances,
                          size_t balance_count, uint32_t *spare, struct mg_part *part, struct mg_why *why);

/* Makes a die in an empty handle that goes on from a checkpoint, at slot 0 with an empty log, as mg_renew would have. The
 * plan may be another one than before, if the checkpoint fits it: the same blocks, pages, logical pages and number of tasks.
 * A page that lies nowhere, or that has no name here, is blank. What the chip has changed meanwhile is found: a read that gives
 * another name than the one of its page here is a fault.
 *
 * The chip has to be as the checkpoint says: of each block the first `filled` pages are programmed, and no block is in erase.
 * The die programs, erases and trims as it goes on, and then the chip isn't as it was: from a spent checkpoint a die is made all the
 * same, which gives old data as good. So the checkpoint STANDS until you say that it is void: make it so that no later start finds
 * it, and then call mg_checkpoint_void. Before that no slot begins that would spend it; reads and idle slots go on.
 *
 * `part` is what the checkpoint had of the part; a null one stands for serial 1 and the part's last block, as of a part without
 * labels. An `aside` above the plan's number of blocks counts as that number. All that
 * the arrays alone can show is tested. The first that stands: NO_MEMORY, which may come at any time; BAD_PLAN,
 * where the plan's times are out of their limits; OTHER_SHAPE; BAD_PLAN else, for its shape, too;
 * OVERFULL; SECOND_OPEN; WORN_OUT; UNPROGRAMMED; ABOVE_CAP; OTHER_SUM; SHARED_CELL. The handle stays empty then. */
uint32_t mg_resume(mg_die *die, const struct mg_plan *plan, const struct mg_task *tasks, size_t count,
                      const struct mg_cell *places, size_t place_count, const struct mg_name *names, size_t name_count,
                      const struct mg_block *blocks, size_t block_count, const uint32_t *balances, size_t balance_count,
                      uint32_t spare, const struct mg_part *part, struct mg_why *why);

/* Says that the checkpoint from which the die was resumed is void: no die will be resumed from it any more. From then on each slot
 * may begin. Of a die whose checkpoint is void already, or that mg_new or mg_mount_end made, it changes nothing. Where the power goes
 * after the checkpoint was made void and before a program of this die, a driver with labels mounts, as after any loss of power. */
uint32_t mg_checkpoint_void(mg_die *die);

/* ---- After a loss of power ----------------------------------------------------------------------------------------
 *
 * A driver may keep LABELS on its part: it writes into each cell that it programs, beside the payload, the logical page, the
 * program's serial (mg_serial), how often the block was erased (`erases` of mg_call and mg_step; 24 bits do), and a check. Then a mount
 * finds again what the part holds, whenever the power went, in a mount too. Each page has its last finished write then, or the one in
 * progress. A page that was trimmed since its last write is blank, or has some earlier write of it, since a trim leaves no label: a
 * driver with notes of trims leaves out the labels that are older.
 * That is proved of parts that owe what bindings/README.md says ("A loss of power").
 *
 * ERASES are counted on from what the labels tell, of each block the greatest count. A block without a good label is taken to have had
 * one erase more than any other: there the count may be off. So the wear that the die goes by is about that of the part.
 *
 * THE PART has one block more than the plan, so a plan has at most 1,023 here. One block of it stands aside: the last one of a die
 * that mg_new made, another one after each mount, and after a shutdown the one of the checkpoint (`struct mg_part`). A die numbers its
 * own blocks from 0 on, without that one, in calls, cells and checkpoints: mg_part_block says which block of the part it is. A mount
 * tells the part's own numbers.
 *
 * A MOUNT says what it needs next, until a die may start. It may be given up at any moment, as the power may go.
 *
 *     mg_mount_new(&mount, &plan, tasks, count);
 *     while (!mg_mount_next(&mount, &step) && step.kind != MG_STEP_END)
 *         if (step.kind == MG_STEP_TELL) mg_mount_tell(&mount, labels, pages, NULL);   (what the cells of step.block show)
 *         else mg_mount_done(&mount);                                                  (once it was done)
 *     mg_mount_end(&mount, names, logical, &die);
 *     mg_mount_free(&mount);
 *
 * It is told each block once, and all of them again where no block is without a page, as after some mounts that were cut. Then it
 * erases a block, and copies pages into blocks that it erased until full accounts and one block are free: at most
 * 1 + fmax / alpha blocks are erased (fmax as mg_plan_bound has it), each but the first after at most pages - alpha copies. */

typedef struct mg_mount { void *at; } mg_mount;

/* Makes a mount in an empty handle. It takes 12 bytes a logical page, 4 a cell and 8 a block here, twice that where it is told all
 * blocks again, and 16 a block as its calls begin. Tasks and plan are those of the die. The first that stands: NO_MEMORY, since the tasks
 * are copied first; BAD_PLAN, where mg_plan_bound refuses it, for its shape, too, or it has 1,024 blocks; NO_MEMORY. */
uint32_t mg_mount_new(mg_mount *mount, const struct mg_plan *plan, const struct mg_task *tasks, size_t count);

/* Frees a mount, and leaves its handle empty. Of an empty handle, or of none, it does nothing. */
void mg_mount_free(mg_mount *mount);

enum { MG_STEP_END = 0,     /* nothing any more: mg_mount_end */
       MG_STEP_READ = 1,    /* read the page in this cell; the program that comes next has its payload */
       MG_STEP_PROGRAM = 2, /* program this cell with what was read last, and with a label of this page, serial and erases */
       MG_STEP_ERASE = 3,   /* one slot of the erase of the block */
       MG_STEP_TELL = 4 };  /* tell what the cells of the block show */
struct mg_step {
    uint64_t serial;      /* of a program what its label bears */
    uint32_t kind;        /* MG_STEP_END .. */
    uint32_t block, page; /* the cell, or the block */
    uint32_t logical;     /* of a program the logical page */
    uint32_t last;        /* 1: the slot of the erase is its last */
    uint32_t erases;      /* of a program how often its block was erased so far, as the mount counts */
};
/* What the mount needs next; asking changes nothing. WRONG_STEP where nothing comes any more: the mount has ended in a die, or
 * was refused as its calls were to begin. */
uint32_t mg_mount_next(mg_mount *mount, struct mg_step *step);

/* What a cell shows: a label, or none (`page` is MG_NO_LABEL) where the cell isn't good, as a torn or blank one. */
#define MG_NO_LABEL UINT32_MAX
struct mg_label {
    uint64_t serial; /* below 2^63 */
    uint32_t page;   /* the logical page */
    uint32_t erases; /* how often the block was erased, as the label has it; 0 in all labels of a driver that keeps no counts */
};
/* Tells the labels of the block that MG_STEP_TELL names, cell by cell from the first one on; cells that aren't told have none. No two
 * of a part have one serial. The first that stands: NO_MEMORY, which leaves the mount; WRONG_STEP; TOO_MANY_CELLS; BAD_LABEL; and
 * where it was the last block WORN_OUT, where a block would have had more than 4,293,918,718 erases with those that the mount may do
 * [first: the first such block], and NO_MEMORY, after which nothing comes any more: free the mount and begin anew, nothing was
 * called. */
uint32_t mg_mount_tell(mg_mount *mount, const struct mg_label *labels, size_t count, struct mg_why *why);

/* The call that mg_mount_next says was made, and went well. WRONG_STEP where none is to be made. Where a call fails the mount is
 * given up: the part may be mounted anew. */
uint32_t mg_mount_done(mg_mount *mount);

/* How many calls of the part may come yet, once all blocks were told; 0 before. It falls with each call. */
uint64_t mg_mount_calls_left(mg_mount *mount);

/* The cell of the part from which a page may be read now, while the mount goes on, too. WRONG_STEP before all blocks were told,
 * and where nothing comes any more. */
uint32_t mg_mount_place(mg_mount *mount, uint32_t page, struct mg_cell *place);

/* Makes a die in an empty handle that begins where the mount has ended: at slot 0 with an empty log, each task with as many tokens as
 * its cap, with the pages that were found, and with the erases that were told of and those of the mount. `names` has by logical page the
 * name of what lies there; a page that lies nowhere, or that has no name here, is blank. The mount is over then. The first that stands,
 * after those of the handles: NO_MEMORY, which may come at any time and leaves the mount; WRONG_STEP, where the mount hasn't ended. */
uint32_t mg_mount_end(mg_mount *mount, const struct mg_name *names, size_t name_count, mg_die *die);

/* What the label of the next program bears, of the one that has begun, too. It rises by one with each program that is ended: from
 * 1 on, of a mounted die from the first serial that its mount left, and of a resumed one from that of its checkpoint. A program that
 * failed stops its die. */
uint64_t mg_serial(const mg_die *die);

/* The number that the part gives a block of the die: its last block's where a block stands aside in its place. */
uint32_t mg_part_block(const mg_die *die, uint32_t block, uint32_t *part_block);

/* ---- Blocks that fail ---------------------------------------------------------------------------------------------
 *
 * A part has bad blocks from the factory, and others fail as they wear. A TABLE OF SPARE BLOCKS gives the plan's blocks, and the one
 * that stands aside for a mount, numbers from 0 on, one good block of the part each; the rest is spare. Blocks in calls of a mount, and
 * those that mg_part_block answers, are numbers of the table then: mg_spares_block says which block of the part has a number.
 *
 * WHEN A CALL FAILS, a program or the last slot of an erase, the driver tells the table, makes the calls that it asks for, and goes on
 * as if the call had gone well: die and mount see nothing of it. After a failed program a spare block is filled with the cells before
 * it, payload, page, serial and erases unchanged, and with that program; it has the number once the last of these calls is done. After a
 * failed erase a spare block has the number at once. A spare block that fails meanwhile is bad, and the next one is tried. Where none is
 * left the answer is NO_SPARE, and the table stays as it was: end the slot with `ok` 0, and all pages can still be read.
 *
 * ERASES COUNT BY NUMBER. Those that a die or a mount says of a program are of the number and not of its block: a spare block that takes
 * a number goes on with that number's count, whatever it was erased before, and the erases that the table asks for aren't counted.
 *
 * THE LONGEST SLOT. A program that failed in page n costs at most 2 n + 1 calls of the part, a copy counted as a read and a program, for
 * each spare block that is used up: below twice the pages of a block.
 *
 * A BLOCK IS LISTED as bad once the call is over in which it failed (mg_spares_use), where the next mg_spares_new or mg_spares_power_up
 * finds it: in a mark on the block, say. One whose mark was lost with the power is found by its labels, and may fail again. */

typedef struct mg_spares { void *at; } mg_spares;

/* Makes a table in an empty handle, for a part of `blocks` blocks on which nothing was done yet; bad[0..count) are its bad ones. The
 * first plan->blocks + 1 of the others get numbers, and the rest is spare; `blocks`, `pages` and `erase_slots` of the plan alone are
 * looked at. Each block that isn't bad is erased before the die is made: mg_spares_next asks for that. All memory of the table is taken
 * here. The first that stands: BAD_SHAPE, where the plan's blocks and one aren't 2 to 1,024, or its pages or erase slots are out of
 * their limits; NO_MEMORY; BAD_SHAPE, where too few blocks aren't bad; NO_MEMORY. */
uint32_t mg_spares_new(mg_spares *spares, const struct mg_plan *plan, uint32_t blocks, const uint32_t *bad, size_t count);

/* The same for a part whose power has come: its blocks are told next (MG_MOVE_TELL). BAD_SHAPE, where the part has too few blocks, or as
 * above; NO_MEMORY. */
uint32_t mg_spares_power_up(mg_spares *spares, const struct mg_plan *plan, uint32_t blocks, const uint32_t *bad, size_t count);

/* Frees a table, and leaves its handle empty. Of an empty handle, or of none, it does nothing. */
void mg_spares_free(mg_spares *spares);

enum { MG_MOVE_NONE = 0,      /* nothing: die and mount go on */
       MG_MOVE_TELL = 1,      /* tell the labels in the cells of `block` */
       MG_MOVE_ERASE = 2,     /* erase `block`, in all of its slots */
       MG_MOVE_COPY = 3,      /* program the cell (`block`, `page`) with what the cell (`from`, `page`) holds: payload, logical page,
                                 serial and erases; a check over the cell's address is made anew */
       MG_MOVE_PROGRAM = 4 }; /* make the program that failed in the cell (`block`, `page`) */
struct mg_move { uint32_t kind, block, page, from; }; /* blocks of the part */

/* What the table needs next; asking changes nothing. NO_SPARE, where a block failed and no spare one was left; DEVICE_FAULT, where the
 * part had a fault; WRONG_STEP, where the blocks that were told make no table. */
uint32_t mg_spares_next(mg_spares *spares, struct mg_move *move);

/* Tells the labels of the block that MG_MOVE_TELL names, cell by cell from the first one on, as they are for a mount, but that all good
 * labels are told, those older than a trim's note, too; cells that aren't told have none. What is told of a bad block isn't looked at,
 * nor `erases` of any label. After the last block numbers go by labels: each block with a label gets one; of blocks with the same first
 * label, since one was being filled in the place of another, that whose labels go farthest; blank ones get what is left. The numbers
 * needn't be those of the life before. All other blocks are spare, and erased next.
 *
 * The first that stands: NO_MEMORY, which leaves the table; WRONG_STEP; TOO_MANY_CELLS; and where it was the last block BAD_SHAPE, where
 * more blocks have labels than there are numbers, or too few aren't bad, and NO_MEMORY: after these two nothing comes any more, and no
 * block was erased. */
uint32_t mg_spares_tell(mg_spares *spares, const struct mg_label *labels, size_t count);

enum { MG_MOVE_DONE = 0, MG_MOVE_FAILED = 1, /* the block that it erased or programmed failed */
       MG_MOVE_FAULT = 2 };                  /* the part itself made it fail, a read of the copy, too */
/* How the part carried out the call that mg_spares_next names. BAD_KIND, where `how` is none of these; WRONG_STEP, where no call comes. */
uint32_t mg_spares_done(mg_spares *spares, uint32_t how);

/* A program failed, of this page of the block with this number. MG_OK: calls come now. NO_SPARE: no spare block is left, and the table
 * is worn out. Else nothing has changed: NO_SPARE, DEVICE_FAULT, WRONG_STEP, where it was worn out, the part had a fault, or the table
 * needs something first; NO_BLOCK. */
uint32_t mg_spares_program_failed(mg_spares *spares, uint32_t number, uint32_t page);

/* The last slot of an erase failed, of the block with this number: a spare one has it now. Refused as mg_spares_program_failed. */
uint32_t mg_spares_erase_failed(mg_spares *spares, uint32_t number);

/* The part's block that has this number. WRONG_STEP, where all blocks aren't told yet; NO_BLOCK. */
uint32_t mg_spares_block(mg_spares *spares, uint32_t number, uint32_t *block);

enum { MG_USE_BAD = 0, MG_USE_SPARE = 1, MG_USE_NUMBER = 2 };
/* What a block of the part is for, and its number, 0 where it has none; one that the part doesn't have is bad. WRONG_STEP, where all
 * blocks aren't told yet. */
uint32_t mg_spares_use(mg_spares *spares, uint32_t block, uint32_t *use, uint32_t *number);

/* How many spare blocks are left; 0 of an empty handle, and before all blocks are told. */
uint32_t mg_spares_left(mg_spares *spares);

/* ---- Questions ----------------------------------------------------------------------------------------------------
 *
 * They may be asked while a slot has begun, too: that slot is not in the log before it has ended. A die that is stopped
 * answers them. */

uint32_t mg_now(const mg_die *die);     /* the present slot: how many were carried out */
uint64_t mg_len(const mg_die *die);     /* the entries of the log: jobs and collections accepted, and slots */
uint64_t mg_records(const mg_die *die); /* the records that these take in memory: runs of alike entries */

/* The cell in which a logical page lies, at any moment: within a slot it is that before the slot, and of a stopped die that
 * before the slot that failed. So every page of a stopped die is found. One that the die doesn't have lies nowhere. */
uint32_t mg_place(const mg_die *die, uint32_t page, struct mg_cell *place);

/* What an entry of the log is of. */
enum { MG_SUBMITTED = 0, MG_COLLECTED = 1, /* a job, a collection was accepted */
       MG_IDLE_SLOT = 2,                   /* a slot in which nothing was carried */
       MG_OPERATION = 3, MG_LAST_OPERATION = 4, /* one in which a job did an operation, its last one */
       MG_PAGE_READ = 5, MG_PAGE_PROGRAMMED = 6, /* one in which a collection read a page to copy it, programmed it */
       MG_ERASED = 7, MG_LAST_ERASED = 8 };     /* one in which it did a slot of its erase, the last one */
struct mg_entry {
    uint32_t what;   /* MG_SUBMITTED .. */
    uint32_t caller; /* who submitted it, or began the slot */
    uint32_t job;    /* the job or collection; 0 in an idle slot */
    uint32_t at;     /* of an operation its place in the job, from 0; of a copy the logical page; of an erase the block; 0 else */
    uint32_t waived; /* how many collections were waived in the slot */
};
/* The entries of the log, from this one on, counted from 0: those that are there, which are mg_len - from, as far as there is
 * room; the rest of the array isn't written. It takes a step for each record before them, so read many at once, and no memory. */
uint32_t mg_entries(const mg_die *die, uint32_t from, struct mg_entry *entries, size_t count);

/* The collections that were waived in the slot of an entry, and how many tokens they gave, as far as there is room. */
uint32_t mg_entry_waived(const mg_die *die, uint32_t entry, struct mg_waived *waived, size_t count);

struct mg_job_head { uint32_t collects, task, release, due; }; /* collects is 1 for a collection */
/* What it was accepted with. UNKNOWN_JOB. */
uint32_t mg_job(const mg_die *die, uint32_t number, struct mg_job_head *job);

/* Who submitted a job or a collection: to find that takes a step for each entry before it. UNKNOWN_JOB. */
uint32_t mg_caller(const mg_die *die, uint32_t number, uint32_t *caller);

enum { MG_WAITING = 0, MG_DONE = 1, MG_WAIVED = 2 };
struct mg_job_outcome {
    int64_t lateness;    /* completion - due, negative where it was early; 0 where it isn't done */
    uint32_t state;      /* MG_WAITING .. */
    uint32_t completion; /* 1 + its last slot; 0 where it isn't done */
    uint32_t given;      /* tokens that a collection gave its task, done or waived */
    uint32_t reads;      /* how many reads a job that is done had */
};
/* What became of a job or collection, and the names that its reads gave, in order. UNKNOWN_JOB; NO_MEMORY. */
uint32_t mg_outcome(const mg_die *die, uint32_t job, struct mg_job_outcome *outcome, struct mg_name *reads, size_t count);

struct mg_worst_job { int64_t lateness; uint32_t job; };
/* The done job or collection with the greatest lateness, of equal ones the one completed first. NOTHING_DONE. */
uint32_t mg_worst(const mg_die *die, struct mg_worst_job *worst);

struct mg_overdue_job { uint64_t late_by; uint32_t job, due; };
/* Of the released jobs and collections that are neither done nor waived, and due at the present slot at the latest, the one with
 * the earliest deadline, of equal ones the smallest number; it will be late by `late_by` slots at least. NONE_OVERDUE. No
 * question beside others: it sorts what is released, so nobody else uses the die meanwhile. */
uint32_t mg_overdue(mg_die *die, struct mg_overdue_job *overdue);

/* `jobs` jobs fill the slots from `start` to `completion`; none was released before `start`, none is due after `due`. So in
 * every schedule of them one is at least `completion - due` late. */
struct mg_cert { uint32_t job, start, due, completion, jobs; };
/* The certificate of the worst job or collection, and the numbers of its jobs, rising. NOTHING_DONE; NO_MEMORY. */
uint32_t mg_certificate(const mg_die *die, struct mg_cert *certificate, uint32_t *jobs, size_t count);

struct mg_row {
    uint32_t number, release, due;
    uint32_t work;       /* how many slots carried it so far */
    uint32_t done;       /* 1 where it is done; a row that you give: anything but 0 */
    uint32_t completion; /* 1 + its last slot, where it is done; 0 else */
};
/* The rows of all jobs and collections but the waived ones, by number; *total gets how many they are. NO_MEMORY. */
uint32_t mg_rows(const mg_die *die, struct mg_row *rows, size_t count, uint32_t *total);

/* Takes a piece of a report, which has no 0 at its end: 0, or anything else where it can't. */
typedef int (*mg_put)(void *to, const char *text, size_t size);

/* The report of some dies, numbered from 0 by their places, as `flashrec audit` reads it: what was accepted, what became of it,
 * and the certificate of each die, as CSV. It is put out in pieces of up to 1,024 bytes; where it is refused, the pieces so far are
 * no report. A die of which it tells may be asked meanwhile, and nothing else. EMPTY_HANDLE, NO_MEMORY; NOT_TAKEN, where a piece
 * wasn't taken, after which none is put out. */
uint32_t mg_report(const mg_die *const *dies, size_t count, mg_put put, void *to);

/* ---- A die that keeps its plan ------------------------------------------------------------------------------------
 *
 * Tasks ask, and the die does the rest: it enters its collections, begins one life after the other, and refuses each ask that
 * breaks its own task's part of the plan. Whatever it takes is done by its `due`, whatever the other tasks ask, while slots are
 * carried out and no call of the device fails. All memory is taken by mg_planned_new: no ask and no slot is refused for memory, or
 * takes any. Of its handle holds what is said of a die's, and slots are begun and ended as a die's are.
 *
 * All lives have the same number of slots, the most that its plan and `longest` allow. The first ask or slot after a life's end
 * begins the next one, in which jobs and collections have numbers from 0 again: up to that call mg_planned_outcome tells what became
 * of those before. An ask that would be due after the end of a life waits for the next one, at most one a task: its jobs are the
 * first of that life, from number 0 on, in the order of their tasks. `release` and `due` are slots of the clock of all lives
 * (mg_planned_clock), and those of an outcome and of a call are slots of the present life. */

typedef struct mg_planned { void *at; } mg_planned;

/* What a task asks for. The periods of different tasks need have no common multiple. */
struct mg_terms {
    uint32_t period;           /* in slots, 1 to 4,294,967,295: `work` and `writes` bound what it asks for in a period */
    uint32_t deadline;         /* slots from a job's release to when it is due: 1 to `held` */
    uint32_t held;             /* the most slots for which a job may hold its tokens: `deadline`, or more, up to 1,048,576 */
    uint32_t work;             /* the most operations in a period, of all its jobs: 1 to 1,048,576 */
    uint32_t writes;           /* the most writes in a period, of all its jobs: 0 to `work` */
    uint32_t collect_period;   /* a collection comes at each multiple of this: 1 to 1,048,576 */
    uint32_t collect_deadline; /* slots from then to when it is due: 1 to `collect_period` */
};

/* The numbers of a refusal. */
struct mg_unasked {
    uint64_t next;   /* MG_TOO_SOON: the first slot with room for all of it, if the task asks for nothing else before, from the
                        start of the present life (`first` of mg_planned_life); 0 else */
    uint32_t number; /* MG_TOO_MANY_OPS, MG_TOO_MANY_WRITES: the task's most; MG_BAD_PAGE: the first such page; MG_WORN_OUT: the
                        block; MG_SHORT_LIFE: the task; 0 else */
};

/* Makes a die at slot 0 in an empty handle, with lives of at most `longest` slots, 1 to 1,048,576; shorter lives take less memory.
 * Each task has its terms; `common` is 0, and of a task its cap alone is looked at. Its chip has to be erased.
 *
 * The first that stands: NO_MEMORY, since plan and terms are copied first; BAD_SHAPE; BAD_PLAN, as for mg_plan_bound; BAD_TERMS;
 * TOO_MUCH_DEMAND; TOO_FEW_PAGES; NO_LIFE; SHORT_LIFE; NO_MEMORY, which may also come before these. The handle stays empty then. */
uint32_t mg_planned_new(mg_planned *die, const struct mg_plan *plan, const struct mg_task *tasks, const struct mg_terms *terms,
                        size_t count, uint32_t longest, struct mg_unasked *why);

/* Frees a die, and leaves its handle empty. Of an empty handle, or of none, it does nothing. */
void mg_planned_free(mg_planned *die);

/* What an ask is answered that is taken. */
struct mg_taken {
    uint64_t release; /* the slot in which its jobs are released, */
    uint64_t due;     /* and the slot before which they are done: slots of the clock of all lives */
    uint32_t waits;   /* 1: it waits for the next life */
    uint32_t first;   /* the number of its first job; each next one has the next number; 0 where it waits */
    uint32_t jobs;    /* how many jobs; 0 where it waits */
};

/* Asks for a job of 1 to 64 operations, done in order, one a slot: it is released now, and due a deadline of its task later; or,
 * where that is after the life, it waits, and is released in the first slot of the next one.
 *
 * The first that stands: BAD_KIND, among the operations that are looked at, one more than any task may ask for; BEGUN: a slot has
 * begun, so ask again once it has ended, nothing has changed; DIE_STOPPED; CLOCK_END, at slot 2^61 of all lives, and WORN_OUT, where a
 * life has ended and the next one can't begin; UNKNOWN_TASK; EMPTY_JOB; TOO_MANY_OPS, more than 64 or than the task's `work`; BAD_PAGE;
 * TOO_MANY_WRITES; TOO_SOON; WAITS_ALREADY. What the others ask is no cause, nor is memory. */
uint32_t mg_planned_ask(mg_planned *die, uint32_t caller, uint32_t task, const struct mg_op *ops, size_t count,
                        struct mg_taken *taken, struct mg_unasked *why);

/* Asks for a burst of 1 to `work` operations: they become jobs of 64 operations, in order, of which the last may have fewer, all with
 * one release and one due. All of them are taken, or none is. Refused as a job is, but that TOO_MANY_OPS is more than `work` alone. */
uint32_t mg_planned_ask_all(mg_planned *die, uint32_t caller, uint32_t task, const struct mg_op *ops, size_t count,
                            struct mg_taken *taken, struct mg_unasked *why);

/* Begins the present slot, as mg_begin does: the next life, where one has ended, with what waited for it; and the slot's collections.
 * The first that stands: BEGUN; CHECKPOINT_STANDS, of a die that mg_planned_resume made and of which mg_planned_checkpoint_void hasn't
 * been called; DIE_STOPPED; CLOCK_END; WORN_OUT, as for an ask. Nothing has begun then, or changed. */
uint32_t mg_planned_begin(mg_planned *die, uint32_t caller, struct mg_call *call);

/* Ends the slot that has begun, as mg_end does. The first that stands: DIE_STOPPED; NOT_BEGUN; DEVICE_FAULT, which stops the die for
 * good: the slot isn't in the log, and its collections are. */
uint32_t mg_planned_end(mg_planned *die, uint32_t ok, const struct mg_name *name, struct mg_reply *reply, struct mg_waived *waived,
                        size_t count);

/* The present slot of the clock of all lives; 0 of an empty handle. */
uint64_t mg_planned_clock(const mg_planned *die);

/* The present life, up to the first call after its end. */
struct mg_life {
    uint64_t first; /* the slot of the clock of all lives in which it began */
    uint32_t slots; /* how many slots it has */
    uint32_t now;   /* its present slot */
};
uint32_t mg_planned_life(const mg_planned *die, struct mg_life *life);

/* How many operations the task's ask has that waits for the next life; 0 where none waits, and of a task that isn't there. */
uint32_t mg_planned_waiting(const mg_planned *die, uint32_t task, uint32_t *operations);

/* Of the jobs and collections of the present life, as mg_job and mg_outcome; and where a page lies, as mg_place, of a stopped die, too.
 * Nothing is ever overdue while slots are carried out, nor late. */
uint32_t mg_planned_job(const mg_planned *die, uint32_t number, struct mg_job_head *job);
uint32_t mg_planned_outcome(const mg_planned *die, uint32_t job, struct mg_job_outcome *outcome, struct mg_name *reads, size_t count);
uint32_t mg_planned_place(const mg_planned *die, uint32_t page, struct mg_cell *place);

/* What stands between two slots where all that was accepted is done or was waived and no ask waits, with the names of the pages, as
 * mg_checkpoint reports it. The die stays as it is. After the slot that ends a life, up to the next ask or slot, nothing that was
 * accepted is left, and each task has what it needs to go on with the same terms, where `held` is `deadline`: so a checkpoint that was
 * taken there always goes on with the same plan, terms and `longest`.
 *
 * The first that stands: BEGUN; DIE_STOPPED; NOT_QUIET; WORN_OUT; ASK_WAITS; NO_MEMORY, which may come before ASK_WAITS. */
uint32_t mg_planned_checkpoint(mg_planned *die, struct mg_cell *places, size_t place_count, struct mg_name *names, size_t name_count,
                               struct mg_block *blocks, size_t block_count, uint32_t *balances, size_t balance_count, uint32_t *spare,
                               struct mg_part *part, struct mg_why *why);

/* The numbers of why no die that keeps its plan goes on, 0 where it has none: those in brackets above. */
struct mg_unresumed { uint32_t first, second, third; };

/* Makes a die in an empty handle that goes on from a checkpoint, as mg_resume does: at slot 0 of the longest life of at most `longest`
 * slots, with the clock of all lives at 0, and with all memory that it ever needs. Its promises go on. Terms and `longest` may be others
 * than before. What tasks asked for before isn't in a checkpoint: what a task lacks to its cap beyond alpha pages counts as asked to
 * write in slot 0, so until its period is over it may ask for that much less.
 *
 * The first that stands: NO_MEMORY, which may come at any time; as of mg_resume OTHER_SHAPE, BAD_PLAN, OVERFULL, SECOND_OPEN, WORN_OUT,
 * UNPROGRAMMED, ABOVE_CAP, OTHER_SUM, SHARED_CELL; BAD_TERMS; TOO_MUCH_DEMAND; TOO_FEW_PAGES; NO_LIFE; NOT_STOCKED; SHORT_LIFE. The
 * handle stays empty then. */
uint32_t mg_planned_resume(mg_planned *die, const struct mg_plan *plan, const struct mg_task *tasks, const struct mg_terms *terms,
                           size_t count, uint32_t longest, const struct mg_cell *places, size_t place_count, const struct mg_name *names,
                           size_t name_count, const struct mg_block *blocks, size_t block_count, const uint32_t *balances,
                           size_t balance_count, uint32_t spare, const struct mg_part *part, struct mg_unresumed *why);

/* As mg_checkpoint_void. Before it no slot of the resumed die begins, whatever it would need: the collections that come in a slot
 * can't be taken back. */
uint32_t mg_planned_checkpoint_void(mg_planned *die);

/* Makes a die that keeps its plan in an empty handle, which begins where the mount has ended, as mg_mount_end does: at slot 0 of the
 * longest life of at most `longest` slots. Each task of the mount's plan has its terms (mg_planned_new), and as many tokens as its cap;
 * nothing counts as asked for before. The mount is over then.
 *
 * The first that stands, after those of the handles: NO_MEMORY, which may come at any time; WRONG_STEP, where the mount hasn't ended;
 * BAD_TERMS, TOO_MUCH_DEMAND, TOO_FEW_PAGES, NO_LIFE and SHORT_LIFE, as of mg_planned_new. All of these leave the mount. With terms and
 * `longest` with which the die before the loss of power was made it is NO_MEMORY alone. */
uint32_t mg_mount_end_planned(mg_mount *mount, const struct mg_terms *terms, size_t count, uint32_t longest, const struct mg_name *names,
                              size_t name_count, mg_planned *die, struct mg_unresumed *why);

/* As mg_serial and mg_part_block; the serial rises over all lives. */
uint64_t mg_planned_serial(const mg_planned *die);
uint32_t mg_planned_part_block(const mg_planned *die, uint32_t block, uint32_t *part_block);

/* ---- For auditors, without a die --------------------------------------------------------------------------------- */

/* Whether a certificate over jobs[0..count) holds for the rows: MG_OK, or its first fault, 201 to 207.
 * ROWS_NOT_RISING where a row's number isn't above the one before; NO_MEMORY. `certificate->jobs` and `->job` aren't
 * looked at. */
uint32_t mg_check(const struct mg_row *rows, size_t row_count, const struct mg_cert *certificate,
                     const uint32_t *jobs, size_t count);

#ifdef __cplusplus
}
#endif
#endif
