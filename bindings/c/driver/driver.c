#include "driver.h"
#include <string.h>

/* One block more stands aside, and the others of the chip are spare. */
static const struct mg_plan plan = {NUMBERS - 1, PAGES, ERASE_SLOTS, LOGICAL, ALPHA, 0};
static const struct mg_task tasks[TASKS] = {{CAP, 0, 0, 0, 0}, {CAP, 0, 0, 0, 0}};
#ifdef KEEPS_PLAN
/* In 200 slots a task may ask for 40 operations, 4 of them writes, done in 100; a collection comes each 200. */
static const struct mg_terms terms[TASKS] = {{200, 100, 100, 40, 4, 200, 200}, {200, 100, 100, 40, 4, 200, 200}};
#endif

/* ---- Names and labels -------------------------------------------------------------------------------------------- */

struct label { struct mg_name name; uint64_t serial; uint32_t logical, erases, check; uint8_t rest[SPARE - 36]; };
_Static_assert(sizeof(struct label) == SPARE, "a label fills the spare area");

static uint64_t hash(uint64_t h, const void *at, size_t size) {
    for (const uint8_t *byte = at; size-- > 0; byte++) h = (h ^ *byte) * 1099511628211u;
    return h;
}

/* The name of a payload. FNV-1a does for an example; take a digest of which no two payloads have the same. */
static struct mg_name name_of(const uint8_t *payload) {
    const uint64_t halves[2] = {hash(14695981039346656037u, payload, PAYLOAD), hash(0x9E3779B97F4A7C15u, payload, PAYLOAD)};
    struct mg_name name;
    memcpy(name.bytes, halves, sizeof halves);
    return name;
}

/* Over the label, with the payload's name, and the cell's own address. */
static uint32_t check_of(struct label label, uint32_t block, uint32_t page) {
    label.check = 0;
    uint64_t h = hash(14695981039346656037u, &label, sizeof label);
    h = hash(hash(h, &block, sizeof block), &page, sizeof page);
    return (uint32_t)(h ^ h >> 32);
}

/* Programs a cell of the chip with a payload and its label. */
static enum chip_end program_cell(uint32_t block, uint32_t at, const uint8_t *payload, struct mg_name name, uint32_t logical,
                                  uint64_t serial, uint32_t erases) {
    struct chip_page page;
    struct label label = {name, serial, logical, erases, 0, {0}};
    label.check = check_of(label, block, at);
    memcpy(page.payload, payload, PAYLOAD);
    memcpy(page.spare, &label, SPARE);
    return chip_program(block, at, &page);
}

/* Whether what was read of a cell was programmed there, and whole; and its label. */
static bool is_good(const struct chip_page *page, uint32_t block, uint32_t at, struct label *label) {
    memcpy(label, page->spare, SPARE);
    struct mg_name name = name_of(page->payload);
    return label->check == check_of(*label, block, at) && label->logical <= LOGICAL && !memcmp(&label->name, &name, sizeof name);
}

/* ---- Blocks that fail -------------------------------------------------------------------------------------------- */

static enum chip_end erase_all(uint32_t block) {
    enum chip_end end = CHIP_DONE;
    for (int slot = 1; slot <= ERASE_SLOTS && end == CHIP_DONE; slot++) end = chip_erase_slot(block, slot == ERASE_SLOTS);
    return end;
}

/* Copies what a cell holds into the same cell of another block: the payload, the page, the serial and the erases, which are those of the
 * number that the other block takes; the check is over the new address. What isn't good isn't good there. */
static enum chip_end copy_cell(uint32_t from, uint32_t block, uint32_t at) {
    struct chip_page page;
    struct label label;
    if (!chip_read(from, at, &page)) return CHIP_FAULT;
    if (is_good(&page, from, at, &label)) return program_cell(block, at, page.payload, label.name, label.logical, label.serial, label.erases);
    memset(page.spare, 0, SPARE);
    return chip_program(block, at, &page);
}

/* Tells the table what the cells of a block show. */
static uint32_t tell_spares(struct driver *driver, uint32_t block) {
    struct mg_label labels[PAGES];
    for (uint32_t p = 0; p < PAGES; p++) {
        struct chip_page page;
        struct label label;
        if (!chip_read(block, p, &page)) return BROKEN;
        labels[p] = is_good(&page, block, p, &label) ? (struct mg_label){label.serial, label.logical, label.erases}
                                                      : (struct mg_label){0, MG_NO_LABEL, 0};
    }
    return mg_spares_tell(&driver->spares, labels, PAGES);
}

/* A program that was asked for. `erases` is how often die or mount has erased the number; not its block, which a spare one may be. */
struct asked { const uint8_t *payload; struct mg_name name; uint32_t logical; uint64_t serial; uint32_t erases; };

/* Makes the calls that the table needs, until it needs none; then blocks that have failed are marked. `asked` is the program that
 * failed, if one did. */
static uint32_t settle(struct driver *driver, const struct asked *asked) {
    struct mg_move move;
    uint32_t refusal, use, number;
    while (!(refusal = mg_spares_next(&driver->spares, &move)) && move.kind != MG_MOVE_NONE) {
        enum chip_end end = CHIP_DONE;
        switch (move.kind) {
        case MG_MOVE_TELL: refusal = tell_spares(driver, move.block); break;
        case MG_MOVE_ERASE: end = erase_all(move.block); break;
        case MG_MOVE_COPY: end = copy_cell(move.from, move.block, move.page); break;
        default: end = program_cell(move.block, move.page, asked->payload, asked->name, asked->logical, asked->serial, asked->erases);
        }
        if (!refusal && move.kind != MG_MOVE_TELL) refusal = mg_spares_done(&driver->spares, end);
        if (refusal) return refusal;
    }
    for (uint32_t b = 0; b < BLOCKS; b++)
        if (!mg_spares_use(&driver->spares, b, &use, &number) && use == MG_USE_BAD && !chip_is_marked(b)) chip_mark(b);
    return refusal;
}

/* Programs a cell of the block with this number. Where the block fails a spare one has the number then, with all that it held. */
static uint32_t program(struct driver *driver, uint32_t number, uint32_t at, const struct asked *asked) {
    uint32_t block, refusal;
    if (mg_spares_block(&driver->spares, number, &block)) return BROKEN;
    enum chip_end end = program_cell(block, at, asked->payload, asked->name, asked->logical, asked->serial, asked->erases);
    if (end == CHIP_DONE) return MG_OK;
    if (end == CHIP_FAULT) return BROKEN;
    refusal = mg_spares_program_failed(&driver->spares, number, at);
    return refusal ? refusal : settle(driver, asked);
}

/* Does a slot of the erase of the block with this number. */
static uint32_t erase_slot(struct driver *driver, uint32_t number, bool last) {
    uint32_t block, refusal;
    if (mg_spares_block(&driver->spares, number, &block)) return BROKEN;
    if (chip_erase_slot(block, last) == CHIP_DONE) return MG_OK;
    refusal = mg_spares_erase_failed(&driver->spares, number);
    return refusal ? refusal : settle(driver, NULL);
}

/* Reads a cell of the block with this number. */
static bool read_cell(struct driver *driver, uint32_t number, uint32_t at, struct chip_page *page) {
    uint32_t block;
    return !mg_spares_block(&driver->spares, number, &block) && chip_read(block, at, page);
}

/* ---- Notes of trims ---------------------------------------------------------------------------------------------- */

/* A note is a page with all of `trims`, labelled as a payload is, and notes are numbered by themselves. They fill one block, and
 * then the other one, which is erased before: so the newest is always whole. */
_Static_assert(sizeof(uint64_t[LOGICAL]) <= PAYLOAD, "a note is a page");
enum { NOTE = LOGICAL }; /* the logical page of its label */

/* Notes that a page is trimmed: whether it was noted. The next program's label counts again. */
static bool note_trim(struct driver *driver, uint32_t logical) {
    uint8_t payload[PAYLOAD] = {0};
    if (driver->note_page == PAGES) {
        driver->note_block = driver->note_block == BLOCKS ? BLOCKS + 1 : BLOCKS;
        driver->note_page = 0;
        if (erase_all(driver->note_block) != CHIP_DONE) return false;
    }
    driver->trims[logical] = DIE(serial)(&driver->die) + driver->above;
    memcpy(payload, driver->trims, sizeof driver->trims);
    return program_cell(driver->note_block, driver->note_page++, payload, name_of(payload), NOTE, ++driver->notes, 0) == CHIP_DONE;
}

/* Finds the newest note, and where the next one goes: behind it, and behind those that are torn. */
static bool find_notes(struct driver *driver) {
    driver->note_block = BLOCKS;
    for (uint32_t b = BLOCKS; b < BLOCKS + NOTE_BLOCKS; b++)
        for (uint32_t p = 0; p < PAGES; p++) {
            struct chip_page page;
            struct label label;
            if (!chip_read(b, p, &page)) return false;
            if (chip_is_free(&page)) continue;
            if (b == driver->note_block) driver->note_page = p + 1;
            if (!is_good(&page, b, p, &label) || label.logical != NOTE || label.serial <= driver->notes) continue;
            driver->notes = label.serial;
            memcpy(driver->trims, page.payload, sizeof driver->trims);
            driver->note_block = b;
            driver->note_page = p + 1;
        }
    return true;
}

/* ---- Buffers ----------------------------------------------------------------------------------------------------- */

/* A copy's payload waits for the next call of its collection. */
static struct buffer *copy_of(struct driver *driver, uint32_t job) {
    for (int i = 0; i < BUFFERS; i++)
        if (driver->buffers[i].is_used && driver->buffers[i].is_copy && driver->buffers[i].job == job) return &driver->buffers[i];
    return NULL;
}

/* A write's is found by its name, since one that waits for the next life of a die has no number yet. */
static struct buffer *written(struct driver *driver, struct mg_name name) {
    for (int i = 0; i < BUFFERS; i++)
        if (driver->buffers[i].is_used && !driver->buffers[i].is_copy && !memcmp(&driver->buffers[i].name, &name, sizeof name))
            return &driver->buffers[i];
    return NULL;
}

static bool keep(struct driver *driver, bool is_copy, uint32_t job, struct mg_name name, const uint8_t *payload) {
    for (int i = 0; i < BUFFERS; i++)
        if (!driver->buffers[i].is_used) {
            driver->buffers[i].is_used = true;
            driver->buffers[i].is_copy = is_copy;
            driver->buffers[i].job = job;
            driver->buffers[i].name = name;
            memcpy(driver->buffers[i].payload, payload, PAYLOAD);
            return true;
        }
    return false;
}

/* ---- Slots ------------------------------------------------------------------------------------------------------- */

/* Does what the die asks: whether it went well, and the name of what a read gave. */
static bool drive(struct driver *driver, const struct mg_call *call, struct mg_name *gave) {
    struct buffer *buffer = call->act >= MG_COPY_READ ? copy_of(driver, call->job) : written(driver, call->name);
    struct chip_page page;
    uint32_t number; /* of the table */
    if (DIE(part_block)(&driver->die, call->block, &number)) return false;
    /* a copy's buffer is free at the collection's next call, whichever it is; a write's, once it is programmed */
    if (buffer && (call->act >= MG_COPY_READ || call->kind == MG_CALL_PROGRAM)) buffer->is_used = false;
    switch (call->kind) {
    case MG_CALL_READ:
        if (!read_cell(driver, number, call->page, &page)) return false;
        *gave = name_of(page.payload);
        if (call->act == MG_COPY_READ) return keep(driver, true, call->job, *gave, page.payload);
        memcpy(driver->read, page.payload, PAYLOAD);
        return true;
    case MG_CALL_PROGRAM:
        if (!buffer) return false;
        struct asked asked = {buffer->payload, call->name, call->logical, DIE(serial)(&driver->die) + driver->above,
                              call->erases};
        return program(driver, number, call->page, &asked) == MG_OK;
    case MG_CALL_ERASE: return erase_slot(driver, number, call->last) == MG_OK;
    case MG_CALL_TRIM: return note_trim(driver, call->logical);
    default: return true;
    }
}

uint32_t driver_slot(struct driver *driver, struct mg_reply *reply) {
    struct mg_call call;
    struct mg_name gave = {{0}};
    struct mg_waived waived[TASKS];
    uint32_t refusal = DIE(begin)(&driver->die, 0, &call);
    if (refusal) return refusal;
    bool ok = drive(driver, &call, &gave);
    return DIE(end)(&driver->die, ok, &gave, reply, waived, TASKS);
}

/* Asks for a job of one operation. */
static uint32_t ask(struct driver *driver, uint32_t task, const struct mg_op *op, uint32_t slots, uint64_t *due) {
#ifdef KEEPS_PLAN
    struct mg_taken taken;
    (void)slots;
    uint32_t refusal = mg_planned_ask(&driver->die, 0, task, op, 1, &taken, NULL);
    if (!refusal) *due = taken.due;
    return refusal;
#else
    const uint32_t now = mg_now(&driver->die);
    *due = now + slots;
    return mg_submit(&driver->die, 0, task, now, now + slots, op, 1, NULL, NULL);
#endif
}

uint32_t driver_write(struct driver *driver, uint32_t task, uint32_t page, const uint8_t *payload, uint32_t slots, uint64_t *due) {
    struct mg_op write = {MG_WRITE, page, name_of(payload)};
    uint32_t refusal = ask(driver, task, &write, slots, due);
    return refusal ? refusal : keep(driver, false, 0, write.name, payload) ? MG_OK : BROKEN;
}

uint32_t driver_trim(struct driver *driver, uint32_t task, uint32_t page, uint32_t slots, uint64_t *due) {
    const struct mg_op trim = {MG_TRIM, page, {{0}}};
    return ask(driver, task, &trim, slots, due);
}

uint32_t driver_read(struct driver *driver, uint32_t page, uint8_t *payload, bool *blank) {
    static const struct mg_name none = {{255, 255, 255, 255, 255, 255, 255, 255, 255, 255, 255, 255, 255, 255, 255, 255}};
    const struct mg_op read = {MG_READ, page, {{0}}};
    struct mg_reply reply;
    uint64_t due;
    uint32_t refusal;
    /* a die that keeps a plan may say that it is too soon: then slots pass */
    while ((refusal = ask(driver, 0, &read, 1, &due)) == MG_TOO_SOON || refusal == MG_WAITS_ALREADY) {
        refusal = driver_slot(driver, &reply);
        if (refusal) return refusal;
    }
    if (refusal) return refusal;
    do {
        refusal = driver_slot(driver, &reply);
        if (refusal) return refusal;
    } while (reply.act != MG_DID_READ || reply.page != page);
    *blank = !memcmp(&reply.name, &none, sizeof none);
    if (!*blank) memcpy(payload, driver->read, PAYLOAD);
    return MG_OK;
}

/* ---- After a fault ----------------------------------------------------------------------------------------------- */

uint32_t driver_rescue(struct driver *driver, uint32_t page, uint8_t *payload, bool *blank) {
    struct mg_cell at;
    struct chip_page read;
    uint32_t number, refusal = driver->die.at ? DIE(place)(&driver->die, page, &at) : mg_mount_place(&driver->mount, page, &at);
    if (refusal) return refusal;
    *blank = at.block == MG_NOWHERE;
    if (*blank) return MG_OK;
    number = at.block; /* a mount tells those of the table, a die its own */
    if (driver->die.at && DIE(part_block)(&driver->die, at.block, &number)) return BROKEN;
    if (!read_cell(driver, number, at.page, &read)) return BROKEN;
    memcpy(payload, read.payload, PAYLOAD);
    return MG_OK;
}

/* ---- After a loss of power --------------------------------------------------------------------------------------- */

/* Tells the mount what the cells of a block show: labels that count, and nothing of torn and blank cells. Serials that are told and
 * trims that were noted are below those to come. */
static uint32_t tell(struct driver *driver, uint32_t number, uint64_t *least) {
    struct mg_label labels[PAGES];
    uint32_t block;
    if (mg_spares_block(&driver->spares, number, &block)) return BROKEN;
    driver->blocks[number] = block;
    driver->erases[number] = UINT32_MAX;
    for (uint32_t p = 0; p < PAGES; p++) {
        struct chip_page page;
        struct label label;
        labels[p] = (struct mg_label){0, MG_NO_LABEL, 0};
        if (!chip_read(block, p, &page)) return BROKEN;
        if (!is_good(&page, block, p, &label) || label.logical == NOTE || label.serial < driver->trims[label.logical]) continue;
        labels[p] = (struct mg_label){label.serial, label.logical, label.erases};
        if (label.erases < driver->erases[number]) driver->erases[number] = label.erases;
        driver->has_label[number] = true;
        if (label.serial >= *least) *least = label.serial + 1;
        if (label.serial < driver->serials[label.logical]) continue;
        driver->serials[label.logical] = label.serial;
        driver->names[label.logical] = label.name;
    }
    driver->told++;
    return mg_mount_tell(&driver->mount, labels, PAGES, NULL);
}

/* Does what the mount needs next, until it needs nothing any more. */
static uint32_t carry_out(struct driver *driver) {
    struct mg_step step;
    struct chip_page page; /* what was read last */
    uint64_t noted = 0, least = 0;
    for (uint32_t l = 0; l < LOGICAL; l++)
        if (driver->trims[l] > noted) noted = driver->trims[l];
    for (;;) {
        uint32_t refusal = mg_mount_next(&driver->mount, &step);
        if (refusal) return refusal;
        switch (step.kind) {
        case MG_STEP_TELL:
            refusal = tell(driver, step.block, &least);
            if (refusal) return refusal;
            driver->above = noted > least ? noted - least : 0;
            continue;
        case MG_STEP_READ: refusal = read_cell(driver, step.block, step.page, &page) ? MG_OK : BROKEN; break;
        case MG_STEP_PROGRAM:;
            struct asked asked = {page.payload, driver->names[step.logical], step.logical, step.serial + driver->above,
                                  step.erases};
            refusal = program(driver, step.block, step.page, &asked);
            break;
        case MG_STEP_ERASE: refusal = erase_slot(driver, step.block, step.last); break;
        default: return MG_OK;
        }
        if (!refusal) refusal = mg_mount_done(&driver->mount);
        if (refusal) return refusal;
    }
}

uint32_t driver_open(struct driver *driver) {
    uint32_t bad[BLOCKS], count = 0;
    DIE(free)(&driver->die);
    mg_mount_free(&driver->mount);
    mg_spares_free(&driver->spares);
    memset(driver, 0, sizeof *driver);
    memset(driver->names, 0xFF, sizeof driver->names);
    if (!find_notes(driver)) return BROKEN;
    for (uint32_t b = 0; b < BLOCKS; b++)
        if (chip_is_marked(b)) bad[count++] = b;
    uint32_t refusal = mg_spares_power_up(&driver->spares, &plan, BLOCKS, bad, count);
    if (!refusal) refusal = settle(driver, NULL);
    if (!refusal) refusal = mg_mount_new(&driver->mount, &plan, tasks, TASKS);
    if (!refusal) refusal = carry_out(driver);
#ifdef KEEPS_PLAN
    if (!refusal) refusal = mg_mount_end_planned(&driver->mount, terms, TASKS, LONGEST, driver->names, LOGICAL, &driver->die, NULL);
#else
    if (!refusal) refusal = mg_mount_end(&driver->mount, driver->names, LOGICAL, &driver->die);
    /* With that nothing is refused for memory, nor waits for it, until a renewal is due. */
    if (!refusal) refusal = mg_reserve_jobs(&driver->die, JOBS, JOBS);
    if (!refusal) refusal = mg_reserve(&driver->die, SLOTS);
#endif
    return refusal;
}

void driver_close(struct driver *driver) {
    DIE(free)(&driver->die);
    mg_mount_free(&driver->mount);
    mg_spares_free(&driver->spares);
}
