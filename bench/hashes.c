/*
 * Writes and fault lists for bench/hashes to count in, on an image with IVFC logarithms 9, 9, 12, 12. A hash block of level 3 has the entries of 128 blocks, one of
 * level 2 those of 16 hash blocks; a DPFS block of level 3 is as long as a hash block and does not begin with one.
 */
#include <stdio.h>
#include <stdlib.h>
#include <string.h>

#include "teplovist.h"

#define BLOCKS 4096
#define BLOCK 4096
#define MOST_WRITTEN 1000

static uint8_t *image;
static size_t length;
static uint8_t session[TEPLOVIST_SESSION_SIZE];
static uint8_t data[MOST_WRITTEN * BLOCK];

/*
 * The debugger stops here. No block of the levels from 1 up to this one may be hashed more often than that, and of each level from 1 up to `seen` a block
 * must be.
 */
__attribute__((noinline)) void case_starts(const char *name, int level, int most, int seen) {
    __asm__ volatile("" : : "r"(name), "r"(level), "r"(most), "r"(seen) : "memory");
}
__attribute__((noinline)) void case_ends(void) { __asm__ volatile("" : : : "memory"); }

static void must(uint64_t answer) {
    if (answer != 0) {
        printf("answered 0x%llx\n", (unsigned long long)answer);
        exit(1);
    }
}

/* Changes a byte in each block of a level, or in one of so many, in both copies: it is not verified then. */
static void spoil(int level, uint64_t step) {
    uint64_t d[TEPLOVIST_DESCRIPTION_LENGTH];
    must(teplovist_open(image, length, d));
    const uint64_t *a = d + TEPLOVIST_A;
    size_t inner = a[TEPLOVIST_PARTITION_OFFSET] + a[TEPLOVIST_DPFS_LEVEL3_OFFSET];
    const uint64_t *l = a + TEPLOVIST_IVFC_LEVEL1_OFFSET + 3 * (level - 1);
    uint64_t place;
    int copy;
    for (copy = 0; copy < 2; copy++)
        for (place = 0; place < l[1]; place += step << l[2])
            image[inner + copy * a[TEPLOVIST_DPFS_LEVEL3_SIZE] + l[0] + place] ^= 1;
}

static void start(int fresh) {
    int level;
    memset(session, 0, sizeof session);
    must(teplovist_make_blank(image, length, 0, BLOCKS));
    for (level = 1; fresh && level <= 3; level++)
        spoil(level, 1);
    must(teplovist_begin(image, length, session));
}

static void measured(const char *name, int fresh, uint64_t place, size_t count) {
    start(fresh);
    case_starts(name, 3, 2, 4);
    must(teplovist_write(image, length, session, 0, place, data, count));
    case_ends();
    /* The same once more: nothing moves off the live copies now, and what was fresh is sound. */
    case_starts("the same again", 3, 2, 4);
    must(teplovist_write(image, length, session, 0, place, data, count));
    case_ends();
}

/*
 * A fault list into a row without room, for which a record is lent all the same since no pointer may be null, and one into a row with room for each
 * fault. Below a level that is damaged as a whole there is nothing to hash.
 */
static void listed(const char *name, int level, uint64_t step) {
    uint64_t faults;
    teplovist_fault unused, *row;
    int seen = step == 1 ? level : 4;
    must(teplovist_make_blank(image, length, 0, BLOCKS));
    if (level != 0)
        spoil(level, step);
    case_starts(name, 4, 1, seen);
    faults = teplovist_faults(image, length, &unused, 0);
    case_ends();
    must(faults & 0xFF);
    row = malloc(((faults >> 8) + 1) * sizeof *row);
    case_starts("the same into a row", 4, 1, seen);
    if (row == NULL || teplovist_faults(image, length, row, faults >> 8) != faults || (level != 0) != (faults >> 8 != 0))
        must(1);
    case_ends();
    free(row);
}

int main(void) {
    length = teplovist_blank_length(BLOCKS);
    image = malloc(length);
    if (image == NULL)
        return 1;
    memset(data, 7, sizeof data);
    measured("1 byte, sound", 0, 5 * BLOCK + 9, 1);
    measured("2 bytes of two hash blocks, sound", 0, 128 * BLOCK - 1, 2);
    measured("1 block, sound", 0, 5 * BLOCK, BLOCK);
    measured("2 blocks of two hash blocks, sound", 0, 127 * BLOCK, 2 * BLOCK);
    measured("64 blocks, sound", 0, 100 * BLOCK, 64 * BLOCK);
    measured("64 blocks and parts of two more, sound", 0, 100 * BLOCK - 7, 64 * BLOCK + 14);
    measured("1000 blocks, sound", 0, 2000 * BLOCK, 1000 * BLOCK);
    measured("1000 blocks but a byte at each end, sound", 0, 2000 * BLOCK + 1, 1000 * BLOCK - 2);
    measured("1 block, fresh", 1, 5 * BLOCK, BLOCK);
    measured("2 blocks of two hash blocks, fresh", 1, 127 * BLOCK, 2 * BLOCK);
    measured("64 blocks, fresh", 1, 100 * BLOCK, 64 * BLOCK);
    measured("1000 blocks, fresh", 1, 2000 * BLOCK, 1000 * BLOCK);
    listed("faults, sound", 0, 0);
    listed("faults, level 1 damaged", 1, 1);
    listed("faults, level 2 damaged", 2, 1);
    listed("faults, every second block of level 2 damaged", 2, 2);
    listed("faults, every third block of level 3 damaged", 3, 3);
    listed("faults, every third block of level 4 damaged", 4, 3);
    listed("faults, level 4 damaged", 4, 1);
    free(image);
    return 0;
}
