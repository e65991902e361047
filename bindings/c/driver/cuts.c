/* Takes the power from the driver at random, in its work and in its recovery, lets the chip have faults, and its blocks fail. It looks
 * after each cut, and of each die that is stopped, whether a page has lost what was reported as written, or has again what was
 * trimmed; whether a mount is told of no fewer erases than there were; and of a die that keeps a plan (KEEPS_PLAN), whether all that
 * was taken was done by its `due`. Where a block failed and no spare one is left, each page is to be read, and the next run has a new
 * chip.
 *
 *   cuts FILE CUTS SEED */
#define _DEFAULT_SOURCE
#include "driver.h"
#include <stdio.h>
#include <stdlib.h>
#include <string.h>
#include <sys/mman.h>
#include <sys/wait.h>
#include <unistd.h>

/* What the world knows, which no cut takes: by page the version that was last reported as written, 0 where it was trimmed, and the
 * one that was asked for after it. */
static struct {
    uint32_t done[LOGICAL], asked[LOGICAL], versions[LOGICAL], programs, trims, stopped, worn;
    uint64_t due[LOGICAL];
    struct driver driver;
    uint32_t erased[BLOCKS];  /* by block how often the chip had erased it when the driver was opened last, */
    uint32_t lost[BLOCKS];    /* and how many of its erases no label has to bear */
    uint32_t blocks[NUMBERS]; /* by number its block, when that was looked at last */
    bool counted;             /* that opening was looked at */
} *world;

static void check(int holds, const char *what) {
    if (holds) return;
    printf("wrong: %s\n", what);
    fflush(stdout);
    _exit(1);
}

/* No label that a mount is told has fewer erases than the chip did of its block since the last opening at which the block showed no
 * label, or had no number: a spare one the table erased once more then. Of a block that took the number of one that failed, the erases
 * of that one count, too; where the power went in the very slot in which it did, its own alone. */
static void count_erases(void) {
    bool is_told[BLOCKS] = {false};
    if (world->counted || world->driver.told < NUMBERS) return;
    for (uint32_t n = 0; n < NUMBERS; n++) {
        uint32_t b = world->blocks[n] = world->driver.blocks[n];
        is_told[b] = true;
        if (world->driver.has_label[n]) check(world->driver.erases[n] >= world->erased[b] - world->lost[b], "no erase is forgotten");
        else world->lost[b] = world->erased[b];
    }
    for (uint32_t b = 0; b < BLOCKS; b++)
        if (!is_told[b]) world->lost[b] = world->erased[b] + 1;
    world->counted = true;
}

/* A block that has a number since this was looked at last goes on with the erases of the one that had it. */
static void follow(struct driver *driver) {
    for (uint32_t n = 0, b; n < NUMBERS; n++) {
        const uint32_t had = world->blocks[n];
        if (mg_spares_block(&driver->spares, n, &b) || b == had) continue;
        world->lost[b] = chip_erases(b) - (chip_erases(had) - world->lost[had]);
        world->blocks[n] = b;
    }
}

static uint32_t open_driver(struct driver *driver) {
    for (uint32_t b = 0; b < BLOCKS; b++) world->erased[b] = chip_erases(b);
    driver->told = 0;
    world->counted = false;
    uint32_t refusal = driver_open(driver);
    count_erases();
    if (world->counted) follow(driver);
    return refusal;
}

static void fill(uint8_t *payload, uint32_t page, uint32_t version) {
    for (uint32_t i = 0; i < PAYLOAD; i += 4) memcpy(payload + i, &(uint32_t){page * 2654435761u + version * 40503u + i}, 4);
    memcpy(payload, &version, 4);
}

/* How many blocks of the chip are marked. */
static uint32_t marked(void) {
    uint32_t count = 0;
    for (uint32_t b = 0; b < BLOCKS; b++) count += chip_is_marked(b);
    return count;
}

/* No block can take the place of one that failed: spare ones are used up, and the die is worn out for good. */
static void is_worn_out(struct driver *driver) {
    struct mg_move move;
    check(mg_spares_left(&driver->spares) == 0 && mg_spares_next(&driver->spares, &move) == MG_NO_SPARE, "no spare block is left");
    check(marked() == BLOCKS - NUMBERS, "only blocks that were replaced are marked");
    _exit(78);
}

/* Each page has what was reported last, or what was asked for when the power went; of a stopped die, what was reported last. They are
 * read by jobs, or from their cells. */
static void look(struct driver *driver, bool is_stopped, bool by_cells) {
    uint8_t payload[PAYLOAD], wanted[PAYLOAD];
    for (uint32_t page = 0; page < LOGICAL; page++) {
        bool blank;
        uint32_t version = 0;
        uint32_t refusal = by_cells ? driver_rescue(driver, page, payload, &blank) : driver_read(driver, page, payload, &blank);
        check(refusal == MG_OK, "a read");
        if (!blank) memcpy(&version, payload, 4);
        fill(wanted, page, version);
        check(blank || !memcmp(payload, wanted, PAYLOAD), "a payload is whole");
        check(version == world->done[page] || (!is_stopped && version == world->asked[page]), "nothing is lost, and nothing comes back");
        if (!is_stopped) world->done[page] = world->asked[page] = version;
    }
}

/* Opens what is there. */
static void begin(struct driver *driver) {
    uint32_t refusal = open_driver(driver);
    if (refusal == MG_NO_SPARE) {
        look(driver, false, true);
        is_worn_out(driver);
    }
    check(refusal == MG_OK, "the driver opens what is there");
}

/* What a task may do where its ask wasn't taken: a die that keeps a plan collects by itself. */
static void untaken(struct driver *driver, uint32_t task, uint32_t refusal) {
#ifdef KEEPS_PLAN
    (void)driver, (void)task;
    check(refusal == MG_TOO_SOON || refusal == MG_WAITS_ALREADY, "a write is taken, or comes too soon");
#else
    const uint32_t now = mg_now(&driver->die);
    check(refusal == MG_NO_TOKENS, "a write is taken, or waits for tokens");
    mg_collect(&driver->die, 0, task, now, now + 200, NULL, NULL);
#endif
}

/* What was asked of a page is done, of a die that keeps a plan in time. */
static void is_done(struct driver *driver, uint32_t page) {
    world->done[page] = world->asked[page];
#ifdef KEEPS_PLAN
    check(mg_planned_clock(&driver->die) <= world->due[page], "all is done by its due");
#else
    (void)driver;
#endif
}

static void work(struct driver *driver, int slots) {
    while (slots-- > 0) {
        uint8_t payload[PAYLOAD];
        uint32_t task = (uint32_t)rand() % TASKS, page = (uint32_t)rand() % LOGICAL;
        if (rand() % 2 == 0 && world->asked[page] == world->done[page]) {
            bool trims = rand() % 6 == 0;
            uint32_t within = 5 + (uint32_t)rand() % 40, version = trims ? 0 : world->versions[page] + 1;
            fill(payload, page, version);
            uint64_t *due = &world->due[page];
            uint32_t refusal = trims ? driver_trim(driver, task, page, within, due) : driver_write(driver, task, page, payload, within, due);
            if (refusal == MG_OK) {
                world->asked[page] = version;
                world->versions[page] += !trims;
            } else untaken(driver, task, refusal);
        }
        struct mg_reply reply;
        uint32_t refusal = driver_slot(driver, &reply);
        follow(driver);
        if (refusal == MG_DEVICE_FAULT) { /* the chip had a fault, or no spare block is left */
            struct mg_move move;
            look(driver, true, true);
            if (mg_spares_next(&driver->spares, &move) == MG_NO_SPARE) is_worn_out(driver);
            world->stopped++;
            begin(driver);
            look(driver, false, false);
            continue;
        }
        check(refusal == MG_OK, "a slot");
        if (reply.act == MG_DID_TRIM) is_done(driver, reply.page), world->trims++;
        if (reply.act == MG_DID_WRITE) is_done(driver, reply.page), world->programs++;
    }
}

/* One life of the process, until its power goes, or its chip is worn out. Answers how it ended: 0, 77 or 78. */
static int life(const char *file, unsigned seed, long cut_opening, long cut_work) {
    pid_t child = fork();
    if (child == 0) {
        srand(seed);
        chip_open(file);
        chip_wear(rand() % 4 ? 20 + rand() % 2000 : 0);
        chip_cut(cut_opening);
        memset(&world->driver, 0, sizeof world->driver);
        begin(&world->driver);
        chip_cut(0);
        look(&world->driver, false, false);
        chip_cut(cut_work);
        chip_fail(rand() % 3 ? 0 : 1 + rand() % 400);
        work(&world->driver, 3000);
        driver_close(&world->driver);
        _exit(0);
    }
    int status;
    waitpid(child, &status, 0);
    int code = WIFEXITED(status) ? WEXITSTATUS(status) : 1;
    if (code != 0 && code != 77 && code != 78) exit(1);
    count_erases();
    if (code == 78) { /* a new chip */
        remove(file);
        memset(world->done, 0, sizeof world->done);
        memset(world->asked, 0, sizeof world->asked);
        memset(world->lost, 0, sizeof world->lost);
        world->worn++;
    }
    return code;
}

int main(int argc, char **argv) {
    if (argc != 4) return 2;
    world = mmap(NULL, sizeof *world, PROT_READ | PROT_WRITE, MAP_SHARED | MAP_ANONYMOUS, -1, 0);
    unsigned seed = (unsigned)atoi(argv[3]);
    int cuts = 0, within = 0;
    remove(argv[1]);
    for (srand(seed); cuts < atoi(argv[2]);) {
        long opening = rand() % 3 == 0 ? 1 + rand() % 2000 : 0;
        int end = life(argv[1], seed + (unsigned)cuts, opening, opening ? 0 : 1 + rand() % 1500);
        cuts++;
        within += end == 77 && opening;
        srand(seed + 7919u * (unsigned)cuts);
    }
    life(argv[1], seed, 0, 0);
    check(world->trims && (world->stopped || cuts < 100), "trims, and dies that were stopped");
    check(world->worn || cuts < 500, "chips that were worn out"); /* with a plan kept few are: about one in 150 cuts */
    printf("%d cuts, %d of them within a recovery, %u faults of the chip, and %u chips of which blocks failed until no spare one was left; "
           "%u pages were written and %u trimmed, and none was lost or came back\n",
           cuts, within, world->stopped, world->worn, world->programs, world->trims);
    return 0;
}
