/* A driver over maulgreen.h: two tasks write, trim and read pages of 2,048 bytes. What a page holds is named by a digest, and a
 * label in its spare area says which logical page it is and how new. The chip has one block more than the die's plan: so after a
 * loss of power the driver tells a mount what all cells show, does what it asks, and has a die again. Blocks of the chip are bad or
 * fail: a table of spare blocks puts others in their place, and neither die nor mount sees it. A trim leaves no label: a
 * note of it goes into one of two blocks that neither die nor mount knows, and labels that are older aren't told.
 *
 * With KEEPS_PLAN it has a die that keeps a plan: tasks ask, and what is taken is done by its `due`, also where the driver was
 * mounted before. */
#ifndef DRIVER_H
#define DRIVER_H
#include "../maulgreen.h"
#include "chip.h"

enum { NUMBERS = 25, TASKS = 2, LOGICAL = 150, ALPHA = 4, CAP = 16, BUFFERS = 40, BROKEN = 1000 };
enum { SLOTS = 16384, JOBS = 8192 }; /* that are reserved: in 1,592,202 bytes with the 11,122 of its birth, as mg_memory says */

#ifdef KEEPS_PLAN
enum { LONGEST = 4000 }; /* slots of a life */
typedef mg_planned driver_die;
#define DIE(call) mg_planned_##call
#else
typedef mg_die driver_die;
#define DIE(call) mg_##call
#endif

/* A payload on its way: of a write until it is programmed, found by its name; of a copy until its collection's next call. */
struct buffer { bool is_used, is_copy; uint32_t job; struct mg_name name; uint8_t payload[PAYLOAD]; };

struct driver {
    driver_die die;
    mg_spares spares;            /* which block of the chip has which number of the die's and the mount's */
    mg_mount mount;              /* the one that made the die, or that couldn't */
    uint64_t above;              /* what the serials of labels have more than those of the die and of its mount */
    uint64_t trims[LOGICAL];     /* by page the least serial since its last trim: what is older isn't there any more */
    uint64_t notes;              /* how many were written */
    uint32_t note_block, note_page; /* where the next note goes */
    struct mg_name names[LOGICAL];  /* by page, of the newest label that the mount was told */
    uint64_t serials[LOGICAL];
    struct buffer buffers[BUFFERS];
    uint8_t read[PAYLOAD];       /* what the last read of a job gave */
    uint32_t told;               /* how many numbers the mount was told, */
    uint32_t blocks[NUMBERS];    /* of which block of the chip, */
    bool has_label[NUMBERS];     /* of which a label, */
    uint32_t erases[NUMBERS];    /* and how often they were erased, as the least of their labels has it */
};

/* Each answers MG_OK, the number of a refusal, or BROKEN where the chip has failed beyond what the driver recovers. MG_NO_SPARE where a
 * block failed and no spare one is left: all pages can be rescued then, and no more. */

/* Finds what is on the chip, mounts it, and makes a die of it. */
uint32_t driver_open(struct driver *driver);

/* Frees what a driver has. */
void driver_close(struct driver *driver);

/* Asks for a write, which is done in some later slot. A die that keeps a plan says by which slot of its clock, and `slots` isn't
 * looked at; of another one the write is due within `slots` slots. */
uint32_t driver_write(struct driver *driver, uint32_t task, uint32_t page, const uint8_t *payload, uint32_t slots, uint64_t *due);

/* Asks for a page to be blank, as driver_write. */
uint32_t driver_trim(struct driver *driver, uint32_t task, uint32_t page, uint32_t slots, uint64_t *due);

/* Reads a page, in as many slots as it takes; `blank` where it was never written. */
uint32_t driver_read(struct driver *driver, uint32_t page, uint8_t *payload, bool *blank);

/* One slot. After MG_DEVICE_FAULT the die is stopped: the driver may rescue its pages, and is opened again; or, where mg_spares_next
 * answers MG_NO_SPARE, its pages are to be written to another chip. */
uint32_t driver_slot(struct driver *driver, struct mg_reply *reply);

/* Reads a page of a die that is stopped, or of a mount that couldn't end, from the cell that it names. */
uint32_t driver_rescue(struct driver *driver, uint32_t page, uint8_t *payload, bool *blank);
#endif
