/* A NAND chip in a file: 51 blocks of 16 pages, of 2,048 bytes and a spare area of 64, and two blocks more, for notes. A page is
 * programmed once between two erases of its block, and an erase may be suspended between its slots. One block is bad from the factory,
 * as 20 of 1,024 are, and others fail as they wear: each says so at a program or the last slot of an erase, and at each one after it.
 * A mark of a bad block stays, whatever is programmed or erased. The blocks for notes don't fail here. The power can be made to go in
 * the middle of a call, which then does a part of its work and ends the process; and the chip itself can be made to fail. */
#ifndef CHIP_H
#define CHIP_H
#include <stdbool.h>
#include <stdint.h>

enum { BLOCKS = 51, NOTE_BLOCKS = 2, PAGES = 16, ERASE_SLOTS = 4, PAYLOAD = 2048, SPARE = 64 };
struct chip_page { uint8_t payload[PAYLOAD], spare[SPARE]; };

/* How a call ended, as the table of spare blocks counts it (MG_MOVE_DONE ..). */
enum chip_end { CHIP_DONE = 0, CHIP_BLOCK_FAILED = 1, CHIP_FAULT = 2 };

void chip_open(const char *file);
void chip_cut(long calls); /* the power goes in the call of this number from now on; 0: it stays */

void chip_fail(long programs); /* the chip has a fault in the program of this number from now on; 0: in none */
void chip_wear(long one_in);   /* of so many programs and erases one makes its block fail; 0: none does */

bool chip_read(uint32_t block, uint32_t page, struct chip_page *out); /* whether the chip did it */
enum chip_end chip_program(uint32_t block, uint32_t page, const struct chip_page *in);
enum chip_end chip_erase_slot(uint32_t block, bool last);

bool chip_is_marked(uint32_t block);
void chip_mark(uint32_t block); /* marks a block as bad */

bool chip_is_free(const struct chip_page *page); /* all bytes are 0xFF */

uint32_t chip_erases(uint32_t block); /* how many erases of the block were finished: a chip doesn't tell, and a test may ask */
#endif
