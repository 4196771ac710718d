/*
 * blank: makes blank images of some sizes and both kinds, and looks at what the header promises of them: lengths, refusals that leave the bytes
 * alone, zeros that are verified, and a session on each. It knows the library by include/teplovist.h alone. Prints what differs and ends
 * with 1, or says how much it compared.
 * blank KIND BLOCKS: writes one to standard output.
 */
#include <stdio.h>
#include <stdlib.h>
#include <string.h>

#include "teplovist.h"

static unsigned compared, wrong;

static void expect(const char *what, uint64_t blocks, uint64_t wanted, uint64_t got) {
    compared++;
    if (wanted == got)
        return;
    wrong++;
    printf("%llu blocks: %s: expected 0x%llx, got 0x%llx\n", (unsigned long long)blocks, what, (unsigned long long)wanted, (unsigned long long)got);
}

/* That many bytes, each of one value, in an allocation of their own. */
static uint8_t *filled(size_t length, int value) {
    uint8_t *bytes = malloc(length == 0 ? 1 : length);
    if (bytes == NULL) {
        fputs("no memory\n", stderr);
        exit(2);
    }
    memset(bytes, value, length);
    return bytes;
}

static int all(const uint8_t *bytes, size_t length, int value) {
    while (length > 0 && bytes[length - 1] == value)
        length--;
    return length == 0;
}

/* The length by the request: DPFS levels 1 and 2 fit into 0x1000 bytes, and level 3's pair holds the hashes and level 4. */
static uint64_t length_of(uint64_t n) {
    uint64_t h3 = 32 * n, h2 = 32 * ((h3 + 0xFFF) / 0x1000), h1 = 32 * ((h2 + 0x1FF) / 0x200);
    uint64_t place = (h1 + h2 + h3 + 0xFFF) / 0x1000 * 0x1000;
    return 0x2000 + 2 * (place + 0x1000 * n);
}

/* A number of blocks, or a length, that is refused leaves every byte. */
static void expect_refused(uint64_t blocks, size_t length) {
    uint8_t *image = filled(length, 0xA5);
    expect("make a blank image that does not fit", blocks, TEPLOVIST_BLANK_SIZE, teplovist_make_blank(image, length, 0, blocks));
    expect("its bytes are untouched", blocks, 1, all(image, length, 0xA5));
    free(image);
}

/* Writes a few bytes at the end of level 4 and reads them back after the commit. */
static void expect_session(uint8_t *image, size_t length, uint64_t blocks) {
    uint8_t session[TEPLOVIST_SESSION_SIZE] = {0}, data[5] = {1, 2, 3, 4, 5}, got[5] = {0};
    uint64_t place = 0x1000 * blocks - sizeof data;
    expect("begin", blocks, TEPLOVIST_ACCEPTED, teplovist_begin(image, length, session));
    expect("write", blocks, TEPLOVIST_ACCEPTED, teplovist_write(image, length, session, 0, place, data, sizeof data));
    expect("commit", blocks, TEPLOVIST_ACCEPTED, teplovist_commit(image, length, session));
    expect("read", blocks, TEPLOVIST_ACCEPTED, teplovist_read_committed(image, length, 0, place, got, sizeof got));
    expect("what was written reads back", blocks, 0, memcmp(data, got, sizeof got) != 0);
    expect("every block is still verified", blocks, blocks << 8, teplovist_count_verified(image, length, 0));
}

static void expect_blank(uint64_t kind, uint64_t blocks) {
    uint64_t numbers[TEPLOVIST_DESCRIPTION_LENGTH];
    size_t length = length_of(blocks), size = 0x1000 * blocks;
    uint8_t *image = filled(length, 0xA5), *content = filled(size, 0xA5);
    expect("length", blocks, length, teplovist_blank_length(blocks));
    expect("make", blocks, TEPLOVIST_ACCEPTED, teplovist_make_blank(image, length, kind, blocks));
    expect("open", blocks, TEPLOVIST_ACCEPTED, teplovist_open(image, length, numbers));
    expect("kind", blocks, kind % 2, numbers[TEPLOVIST_KIND]);
    expect("one partition", blocks, 1, numbers[TEPLOVIST_PARTITIONS]);
    expect("the primary table", blocks, 0, numbers[TEPLOVIST_ACTIVE_TABLE]);
    expect("level 4", blocks, size, numbers[TEPLOVIST_A + TEPLOVIST_IVFC_LEVEL4_SIZE]);
    expect("the front is zero", blocks, 1, all(image, 0x100, 0));
    expect("the inactive table is zero", blocks, 1, all(image + 0x200, 0x130, 0));
    expect("count", blocks, blocks << 8, teplovist_count_verified(image, length, 0));
    expect("read all", blocks, TEPLOVIST_ACCEPTED, teplovist_read_committed(image, length, 0, 0, content, size));
    expect("all is zero", blocks, 1, all(content, size, 0));
    expect_session(image, length, blocks);
    free(content);
    free(image);
    expect_refused(blocks, length - 1);
    expect_refused(blocks, length + 1);
}

static int write_one(uint64_t kind, uint64_t blocks) {
    size_t length = teplovist_blank_length(blocks);
    uint8_t *image = filled(length, 0xA5);
    if (teplovist_make_blank(image, length, kind, blocks) != TEPLOVIST_ACCEPTED || fwrite(image, 1, length, stdout) != length)
        return 1;
    free(image);
    return 0;
}

int main(int count, char **words) {
    static const uint64_t some[] = {1, 2, 3, 127, 128, 129, 511, 512, 1023, 1024, 2048, 2049, 4095, 4096};
    static const uint64_t none[] = {0, 4097, UINT64_MAX};
    size_t i;
    if (count == 3)
        return write_one(strtoull(words[1], NULL, 10), strtoull(words[2], NULL, 10));
    for (i = 0; i < sizeof some / sizeof *some; i++) {
        expect_blank(0, some[i]);
        expect_blank(UINT64_MAX, some[i]); /* an odd number is DIFF */
    }
    for (i = 0; i < sizeof none / sizeof *none; i++) {
        expect("length", none[i], 0, teplovist_blank_length(none[i]));
        expect_refused(none[i], 0);
        expect_refused(none[i], length_of(1));
    }
    if (wrong == 0)
        printf("blank: %u comparisons\n", compared);
    return wrong != 0;
}
