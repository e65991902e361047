#define _DEFAULT_SOURCE
#include "chip.h"
#include <fcntl.h>
#include <stdlib.h>
#include <string.h>
#include <sys/mman.h>
#include <unistd.h>

static struct chip {
    struct chip_page cells[BLOCKS + NOTE_BLOCKS][PAGES];
    uint8_t is_marked[BLOCKS + NOTE_BLOCKS], has_failed[BLOCKS + NOTE_BLOCKS];
    uint32_t erased[BLOCKS + NOTE_BLOCKS]; /* by block how often */
} *chip;
static long calls_left;    /* 0: the power stays */
static long programs_left; /* 0: the chip has no fault */
static long wears_one_in;  /* 0: no block fails */

void chip_open(const char *file) {
    int fd = open(file, O_RDWR | O_CREAT, 0644);
    bool is_new = fd >= 0 && lseek(fd, 0, SEEK_END) != (off_t)sizeof *chip;
    if (fd < 0 || ftruncate(fd, (off_t)sizeof *chip)) abort();
    chip = mmap(NULL, sizeof *chip, PROT_READ | PROT_WRITE, MAP_SHARED, fd, 0);
    close(fd);
    if (chip == MAP_FAILED) abort();
    if (!is_new) return;
    memset(chip, 0, sizeof *chip);
    memset(chip->cells, 0xFF, sizeof chip->cells);
    uint32_t bad = (uint32_t)rand() % BLOCKS;
    chip->is_marked[bad] = chip->has_failed[bad] = 1;
}

void chip_cut(long calls) { calls_left = calls; }

void chip_fail(long programs) { programs_left = programs; }

void chip_wear(long one_in) { wears_one_in = one_in; }

uint32_t chip_erases(uint32_t block) { return chip->erased[block]; }

static bool is_cut(void) { return calls_left > 0 && --calls_left == 0; }

/* Whether this call fails for its block, as each one after it does. */
static bool wears(uint32_t block) {
    if (block < BLOCKS && wears_one_in > 0 && rand() % wears_one_in == 0) chip->has_failed[block] = 1;
    return chip->has_failed[block];
}

bool chip_is_free(const struct chip_page *page) {
    const uint8_t *bytes = (const uint8_t *)page;
    for (size_t i = 0; i < sizeof *page; i++)
        if (bytes[i] != 0xFF) return false;
    return true;
}

bool chip_read(uint32_t block, uint32_t page, struct chip_page *out) {
    if (is_cut()) _exit(77);
    *out = chip->cells[block][page];
    return true;
}

enum chip_end chip_program(uint32_t block, uint32_t page, const struct chip_page *in) {
    struct chip_page *cell = &chip->cells[block][page];
    if (!chip_is_free(cell)) return CHIP_FAULT;
    bool cut = is_cut(), fault = programs_left > 0 && --programs_left == 0, failed = wears(block);
    if (cut || fault || failed) { /* torn: some of its bytes are there, and maybe those of the spare area */
        memcpy(cell->payload, in->payload, (size_t)rand() % PAYLOAD);
        if (rand() & 1) memcpy(cell->spare, in->spare, SPARE);
        if (cut) _exit(77);
        return fault ? CHIP_FAULT : CHIP_BLOCK_FAILED;
    }
    *cell = *in;
    return CHIP_DONE;
}

enum chip_end chip_erase_slot(uint32_t block, bool last) {
    bool cut = is_cut(), failed = last && wears(block);
    if (cut || failed) { /* some pages are erased, and some half */
        for (int page = 0; page < PAGES; page++) {
            size_t part = rand() & 1 ? sizeof(struct chip_page) : (size_t)rand() % sizeof(struct chip_page);
            if (rand() & 1) memset(&chip->cells[block][page], 0xFF, part);
        }
        if (cut) _exit(77);
        return CHIP_BLOCK_FAILED;
    }
    if (last) memset(chip->cells[block], 0xFF, sizeof chip->cells[block]), chip->erased[block]++;
    else memset(chip->cells[block][PAGES - 1].spare, 0, SPARE); /* what was there can't be relied on any more */
    return CHIP_DONE;
}

bool chip_is_marked(uint32_t block) { return chip->is_marked[block]; }

void chip_mark(uint32_t block) {
    if (is_cut()) _exit(77);
    chip->is_marked[block] = 1;
}
