/*
 * session IMAGE..: for each image compares every number of its description with the image's own bytes, read at the offsets that the paper
 * prints, looks at each block that is signed, and runs whole sessions on it, plain and signed, with steps back. It knows the library by
 * include/teplovist.h alone. Prints what differs and ends with 1, or says how much it compared. No two names of the description may have the same
 * numbers in all images: they could be exchanged unseen.
 */
#include <stdio.h>
#include <stdlib.h>
#include <string.h>

#include "teplovist.h"

static unsigned compared, wrong;
static const char *image_name;

static void expect(const char *what, uint64_t wanted, uint64_t got) {
    compared++;
    if (wanted == got)
        return;
    wrong++;
    printf("%s: %s: expected 0x%llx, got 0x%llx\n", image_name, what, (unsigned long long)wanted, (unsigned long long)got);
}

static void expect_bytes(const char *what, const uint8_t *wanted, const uint8_t *got, size_t length) {
    expect(what, 0, length != 0 && memcmp(wanted, got, length) != 0);
}

/* ---- the fields, by the paper's tables */

static uint64_t field(const uint8_t *bytes, size_t at, size_t width) {
    uint64_t value = 0;
    while (width-- > 0)
        value = value << 8 | bytes[at + width];
    return value;
}

/* A header's fields; where a kind has none of its own, the value stands here. */
struct header {
    uint64_t kind, count, flag, secondary, primary, table_size;
    struct slot {
        uint64_t descriptor, descriptor_size, partition, partition_size;
    } slots[2];
};

static struct header disa_header(const uint8_t *h) {
    struct header header = {0, field(h, 0x08, 4), field(h, 0x68, 1), field(h, 0x10, 8), field(h, 0x18, 8), field(h, 0x20, 8), {
        {field(h, 0x28, 8), field(h, 0x30, 8), field(h, 0x48, 8), field(h, 0x50, 8)},
        {field(h, 0x38, 8), field(h, 0x40, 8), field(h, 0x58, 8), field(h, 0x60, 8)}}};
    return header;
}

static struct header diff_header(const uint8_t *h) {
    struct header header = {1, 1, field(h, 0x30, 4), field(h, 0x08, 8), field(h, 0x10, 8), field(h, 0x18, 8), {
        {0, field(h, 0x18, 8), field(h, 0x20, 8), field(h, 0x28, 8)},
        {0, 0, 0, 0}}};
    return header;
}

static struct header header_of(const uint8_t *image) {
    return memcmp(image + 0x100, "DISA", 4) == 0 ? disa_header(image + 0x100) : diff_header(image + 0x100);
}

/* ---- the description, index by index */

static uint64_t description[TEPLOVIST_DESCRIPTION_LENGTH];
static int named[TEPLOVIST_DESCRIPTION_LENGTH];

static void expect_number(const char *name, size_t index, uint64_t wanted) {
    expect(name, wanted, description[index]);
    named[index] = 1;
}

/* What was expected under each name, in the order of the images, to tell whether two names could be exchanged unseen. */
#define MOST_SEEN 128
struct names {
    size_t count;
    struct {
        const char *name;
        size_t length;
        uint64_t values[MOST_SEEN];
    } rows[TEPLOVIST_DESCRIPTION_LENGTH];
};
static struct names header_names, partition_names;

static void keep(struct names *names, const char *name, uint64_t wanted) {
    size_t i = 0;
    while (i < names->count && strcmp(names->rows[i].name, name) != 0)
        i++;
    if (i == names->count)
        names->rows[names->count++].name = name;
    if (names->rows[i].length < MOST_SEEN)
        names->rows[i].values[names->rows[i].length++] = wanted;
}

/* Two names have the same numbers in every image. */
static int alike(const struct names *names, size_t i, size_t j) {
    return memcmp(names->rows[i].values, names->rows[j].values, names->rows[i].length * sizeof(uint64_t)) == 0;
}

/* How many pairs are alike; each is printed. */
static unsigned pairs_alike(const struct names *names) {
    unsigned pairs = 0;
    size_t i, j;
    for (i = 0; i < names->count; i++)
        for (j = 0; j < i; j++)
            if (alike(names, i, j)) {
                printf("alike in every image: %s, %s\n", names->rows[j].name, names->rows[i].name);
                pairs++;
            }
    return pairs;
}

#define HEADER_NUMBER(index, wanted) (keep(&header_names, #index, wanted), expect_number(#index, index, wanted))
#define PARTITION_NUMBER(index, wanted) (keep(&partition_names, #index, wanted), expect_number(#index, base + index, wanted))

static void expect_header(const struct header *h) {
    HEADER_NUMBER(TEPLOVIST_KIND, h->kind);
    HEADER_NUMBER(TEPLOVIST_PARTITIONS, h->count);
    HEADER_NUMBER(TEPLOVIST_ACTIVE_TABLE, h->flag);
    HEADER_NUMBER(TEPLOVIST_SECONDARY_OFFSET, h->secondary);
    HEADER_NUMBER(TEPLOVIST_SECONDARY_SIZE, h->table_size);
    HEADER_NUMBER(TEPLOVIST_PRIMARY_OFFSET, h->primary);
    expect_number("TEPLOVIST_PRIMARY_SIZE", TEPLOVIST_PRIMARY_SIZE, h->table_size); /* the same field, so alike */
}

static void expect_difi(size_t base, const struct slot *slot, const uint8_t *difi) {
    int external = difi[0x38] != 0;
    PARTITION_NUMBER(TEPLOVIST_DESCRIPTOR_OFFSET, slot->descriptor);
    PARTITION_NUMBER(TEPLOVIST_DESCRIPTOR_SIZE, slot->descriptor_size);
    PARTITION_NUMBER(TEPLOVIST_PARTITION_OFFSET, slot->partition);
    PARTITION_NUMBER(TEPLOVIST_PARTITION_SIZE, slot->partition_size);
    PARTITION_NUMBER(TEPLOVIST_IVFC_OFFSET, field(difi, 0x08, 8));
    PARTITION_NUMBER(TEPLOVIST_IVFC_SIZE, field(difi, 0x10, 8));
    PARTITION_NUMBER(TEPLOVIST_DPFS_OFFSET, field(difi, 0x18, 8));
    PARTITION_NUMBER(TEPLOVIST_DPFS_SIZE, field(difi, 0x20, 8));
    PARTITION_NUMBER(TEPLOVIST_MASTER_HASH_OFFSET, field(difi, 0x28, 8));
    PARTITION_NUMBER(TEPLOVIST_MASTER_HASH_SIZE, field(difi, 0x30, 8));
    PARTITION_NUMBER(TEPLOVIST_EXTERNAL, external ? 1 : 0);
    PARTITION_NUMBER(TEPLOVIST_SELECTOR, field(difi, 0x39, 1));
    PARTITION_NUMBER(TEPLOVIST_EXTERNAL_OFFSET, external ? field(difi, 0x3C, 8) : 0);
}

static void expect_ivfc(size_t base, int external, const uint8_t *ivfc) {
    PARTITION_NUMBER(TEPLOVIST_IVFC_LEVEL1_OFFSET, field(ivfc, 0x10, 8));
    PARTITION_NUMBER(TEPLOVIST_IVFC_LEVEL1_SIZE, field(ivfc, 0x18, 8));
    PARTITION_NUMBER(TEPLOVIST_IVFC_LEVEL1_LOG, field(ivfc, 0x20, 4));
    PARTITION_NUMBER(TEPLOVIST_IVFC_LEVEL2_OFFSET, field(ivfc, 0x28, 8));
    PARTITION_NUMBER(TEPLOVIST_IVFC_LEVEL2_SIZE, field(ivfc, 0x30, 8));
    PARTITION_NUMBER(TEPLOVIST_IVFC_LEVEL2_LOG, field(ivfc, 0x38, 4));
    PARTITION_NUMBER(TEPLOVIST_IVFC_LEVEL3_OFFSET, field(ivfc, 0x40, 8));
    PARTITION_NUMBER(TEPLOVIST_IVFC_LEVEL3_SIZE, field(ivfc, 0x48, 8));
    PARTITION_NUMBER(TEPLOVIST_IVFC_LEVEL3_LOG, field(ivfc, 0x50, 4));
    PARTITION_NUMBER(TEPLOVIST_IVFC_LEVEL4_OFFSET, external ? 0 : field(ivfc, 0x58, 8));
    PARTITION_NUMBER(TEPLOVIST_IVFC_LEVEL4_SIZE, field(ivfc, 0x60, 8));
    PARTITION_NUMBER(TEPLOVIST_IVFC_LEVEL4_LOG, field(ivfc, 0x68, 4));
}

static void expect_dpfs(size_t base, const uint8_t *dpfs) {
    PARTITION_NUMBER(TEPLOVIST_DPFS_LEVEL1_OFFSET, field(dpfs, 0x08, 8));
    PARTITION_NUMBER(TEPLOVIST_DPFS_LEVEL1_SIZE, field(dpfs, 0x10, 8));
    PARTITION_NUMBER(TEPLOVIST_DPFS_LEVEL2_OFFSET, field(dpfs, 0x20, 8));
    PARTITION_NUMBER(TEPLOVIST_DPFS_LEVEL2_SIZE, field(dpfs, 0x28, 8));
    PARTITION_NUMBER(TEPLOVIST_DPFS_LEVEL2_LOG, field(dpfs, 0x30, 4));
    PARTITION_NUMBER(TEPLOVIST_DPFS_LEVEL3_OFFSET, field(dpfs, 0x38, 8));
    PARTITION_NUMBER(TEPLOVIST_DPFS_LEVEL3_SIZE, field(dpfs, 0x40, 8));
    PARTITION_NUMBER(TEPLOVIST_DPFS_LEVEL3_LOG, field(dpfs, 0x48, 4));
}

/* Opens the image and compares all 80 numbers: by name, or with 0 where no name has the index. */
static void expect_description(const uint8_t *image, size_t length) {
    struct header h = header_of(image);
    uint64_t q;
    size_t i;
    memset(description, 0xA5, sizeof description);
    memset(named, 0, sizeof named);
    expect("open", TEPLOVIST_ACCEPTED, teplovist_open(image, length, description));
    expect_header(&h);
    for (q = 0; q < h.count; q++) {
        const uint8_t *difi = image + (h.flag == 0 ? h.primary : h.secondary) + h.slots[q].descriptor;
        size_t base = q == 0 ? TEPLOVIST_A : TEPLOVIST_B;
        expect_difi(base, &h.slots[q], difi);
        expect_ivfc(base, difi[0x38] != 0, difi + field(difi, 0x08, 8));
        expect_dpfs(base, difi + field(difi, 0x18, 8));
    }
    for (i = 0; i < TEPLOVIST_DESCRIPTION_LENGTH; i++)
        if (!named[i])
            expect("a number that has no name", 0, description[i]);
}

/* ---- the calls */

/* That many zero bytes, an allocation of their own, so that a tool like valgrind sees a step outside. */
static void *allocated(size_t length) {
    void *bytes = calloc(length + !length, 1);
    if (!bytes) {
        printf("no memory\n");
        exit(1);
    }
    return bytes;
}

/* A call whose whole answer is a refusal's number, or 0. */
#define ANSWERS(number, call) expect(#call, number, call)

/* A partition's level 4, and where it stands in the image if it is external. */
struct level4 {
    uint64_t partition, external, outside, size, log;
};

static struct level4 level4_of(uint64_t partition) {
    const uint64_t *numbers = description + (partition == 0 ? TEPLOVIST_A : TEPLOVIST_B);
    struct level4 level = {partition, numbers[TEPLOVIST_EXTERNAL],
                           numbers[TEPLOVIST_PARTITION_OFFSET] + numbers[TEPLOVIST_EXTERNAL_OFFSET],
                           numbers[TEPLOVIST_IVFC_LEVEL4_SIZE], numbers[TEPLOVIST_IVFC_LEVEL4_LOG]};
    return level;
}

static uint64_t blocks_of(struct level4 level) {
    return (level.size + ((uint64_t)1 << level.log) - 1) >> level.log;
}

/* The first block of which "is it verified" says no or yes, else the number of blocks. */
static uint64_t first_block(const uint8_t *image, size_t length, struct level4 level, uint64_t said) {
    uint64_t b = 0;
    while (b < blocks_of(level) && teplovist_verified(image, length, level.partition, b) != said << 8)
        b++;
    return b;
}

/* The count is that of the blocks that are verified, and a read of all of level 4 is accepted or names the first that is not. */
static void expect_committed(const uint8_t *image, size_t length, struct level4 level) {
    uint64_t blocks = blocks_of(level), b, answer, verified = 0, first = first_block(image, length, level, 0);
    uint8_t *buffer = allocated(level.size);
    for (b = 0; b < blocks; b++) {
        answer = teplovist_verified(image, length, level.partition, b);
        expect("verified", TEPLOVIST_ACCEPTED, TEPLOVIST_REFUSAL(answer));
        verified += TEPLOVIST_VALUE(answer);
    }
    answer = teplovist_count_verified(image, length, level.partition);
    expect("count_verified", TEPLOVIST_ACCEPTED, TEPLOVIST_REFUSAL(answer));
    expect("the count", verified, TEPLOVIST_VALUE(answer));
    answer = teplovist_read_committed(image, length, level.partition, 0, buffer, level.size);
    expect("read_committed", first == blocks ? TEPLOVIST_ACCEPTED : TEPLOVIST_UNVERIFIED, TEPLOVIST_REFUSAL(answer));
    expect("the block that is refused", first == blocks ? 0 : first, TEPLOVIST_VALUE(answer));
    free(buffer);
}

/* ---- the fault list */

/* A list that is as long as it must be, and one record more, which stays as it was. */
static teplovist_fault *faults_of(const uint8_t *image, size_t length, uint64_t *number) {
    teplovist_fault *row, untouched;
    uint64_t answer = teplovist_faults(image, length, &untouched, 0);
    expect("faults", TEPLOVIST_ACCEPTED, TEPLOVIST_REFUSAL(answer));
    *number = TEPLOVIST_VALUE(answer);
    row = allocated((*number + 1) * sizeof *row);
    memset(row, 0xA5, (*number + 1) * sizeof *row);
    memset(&untouched, 0xA5, sizeof untouched);
    expect("the faults of a longer row", answer, teplovist_faults(image, length, row, *number + 1));
    expect_bytes("the record past the last fault", (uint8_t *)&untouched, (uint8_t *)&row[*number], sizeof untouched);
    return row;
}

/* The faults are in order, and those of a level 4 are the blocks that are not verified. */
static void expect_faults(const uint8_t *image, size_t length, struct level4 level) {
    uint64_t number, i, b = 0, blocks = blocks_of(level);
    teplovist_fault *row = faults_of(image, length, &number);
    for (i = 0; i < number; i++) {
        const teplovist_fault f = row[i], *before = i == 0 ? NULL : &row[i - 1];
        expect("a fault's partition", 1, f.partition < 2);
        expect("a fault's level", 1, f.level >= 1 && f.level <= 4);
        if (before != NULL)
            expect("the order of the faults", 1,
                   before->partition < f.partition ||
                       (before->partition == f.partition &&
                        (before->level < f.level || (before->level == f.level && before->block < f.block))));
        if (f.partition != level.partition || f.level != 4)
            continue;
        for (; b < f.block; b++)
            expect("a block that is not in the list", 1, TEPLOVIST_VALUE(teplovist_verified(image, length, level.partition, b)));
        expect("a block in the list", 0, TEPLOVIST_VALUE(teplovist_verified(image, length, level.partition, b++)));
    }
    for (; b < blocks; b++)
        expect("a block that is not in the list", 1, TEPLOVIST_VALUE(teplovist_verified(image, length, level.partition, b)));
    free(row);
}

/* A row that is too short holds the first faults, and the number is that of all. */
static void expect_short_row(const uint8_t *image, size_t length) {
    uint64_t number;
    teplovist_fault *row = faults_of(image, length, &number), first;
    memset(&first, 0xA5, sizeof first);
    if (number > 0) {
        expect("the faults of a short row", number, TEPLOVIST_VALUE(teplovist_faults(image, length, &first, 1)));
        expect_bytes("the first fault", (uint8_t *)row, (uint8_t *)&first, sizeof first);
    }
    ANSWERS(TEPLOVIST_LENGTH, teplovist_faults(image, 0x1FF, row, number + 1));
    free(row);
}

/* A byte is changed here and there: the list of an image that still opens is as it must be. */
static void expect_damage(const uint8_t *image, size_t length, struct level4 level) {
    uint64_t numbers[TEPLOVIST_DESCRIPTION_LENGTH];
    uint8_t *damaged = allocated(length);
    size_t place;
    for (place = 0x200; place < length; place += length / 40 + 1) {
        memcpy(damaged, image, length);
        damaged[place] ^= 0x10;
        if (TEPLOVIST_REFUSAL(teplovist_open(damaged, length, numbers)) != TEPLOVIST_ACCEPTED)
            continue;
        expect_faults(damaged, length, level);
        expect_short_row(damaged, length);
    }
    free(damaged);
}

static void expect_limits(const uint8_t *image, size_t length, struct level4 level) {
    uint8_t *buffer = allocated(level.size + 1);
    ANSWERS(TEPLOVIST_OUT_OF_RANGE, teplovist_verified(image, length, level.partition, blocks_of(level)));
    ANSWERS(TEPLOVIST_OUT_OF_RANGE, teplovist_read_committed(image, length, level.partition, 0, buffer, level.size + 1));
    ANSWERS(TEPLOVIST_OUT_OF_RANGE, teplovist_read_committed(image, length, level.partition, level.size, buffer, 1));
    ANSWERS(TEPLOVIST_OUT_OF_RANGE, teplovist_read_committed(image, length, level.partition, UINT64_MAX, buffer, 1));
    ANSWERS(TEPLOVIST_ACCEPTED, teplovist_read_committed(image, length, level.partition, level.size, buffer, 0));
    free(buffer);
}

/* ---- sessions */

/* A session on one block: what it held, what is written to it, and a buffer to read it back. Of an external level 4, where it stands. */
struct trial {
    uint8_t *image;
    size_t length, n;
    uint64_t partition, place, block, external, outside;
    uint8_t *old, *data, *got;
    uint8_t session[TEPLOVIST_SESSION_SIZE];
};

static const uint8_t idle[TEPLOVIST_SESSION_SIZE];
static const uint8_t any_key[TEPLOVIST_KEY_SIZE];

/* The committed bytes; where an external level 4 was written in place and not committed its block is not verified. */
static void expect_read(const struct trial *t, const char *what, const uint8_t *wanted, int in_place) {
    uint64_t answer = teplovist_read_committed(t->image, t->length, t->partition, t->place, t->got, t->n);
    if (t->external && in_place) {
        expect(what, TEPLOVIST_UNVERIFIED | t->block << 8, answer);
        return;
    }
    expect("read_committed", TEPLOVIST_ACCEPTED, answer);
    expect_bytes(what, wanted, t->got, t->n);
}

/* An idle session that remembers two headers. */
static void expect_remembered(const uint8_t *session, const uint8_t *former, const uint8_t *later) {
    expect("the session after a commit", 0, session[0]);
    expect_bytes("the header before the commit", former, session + 1, 256);
    expect_bytes("the header after the commit", later, session + 257, 256);
}

/* Neither form of a step back is accepted, and nothing changes. */
static void expect_no_revert(uint8_t *image, size_t length, uint8_t *session, uint64_t refusal) {
    uint64_t signer[TEPLOVIST_SIGNER_LENGTH] = {TEPLOVIST_CARD, 0, 0, 0};
    uint8_t *before = allocated(length), kept[TEPLOVIST_SESSION_SIZE];
    memcpy(before, image, length);
    memcpy(kept, session, sizeof kept);
    ANSWERS(refusal, teplovist_revert(image, length, session));
    ANSWERS(refusal, teplovist_revert_signed(image, length, session, any_key, signer));
    expect_bytes("the image after a revert that is refused", before, image, length);
    expect_bytes("the session after a revert that is refused", kept, session, sizeof kept);
    free(before);
}

static void expect_begin(struct trial *t) {
    ANSWERS(TEPLOVIST_SESSION_STATE, teplovist_commit(t->image, t->length, t->session));
    ANSWERS(TEPLOVIST_SESSION_STATE, teplovist_abandon(t->session));
    expect_no_revert(t->image, t->length, t->session, TEPLOVIST_NOTHING_TO_REVERT);
    ANSWERS(TEPLOVIST_ACCEPTED, teplovist_begin(t->image, t->length, t->session));
    expect("the session is begun", 1, t->session[0]);
    expect_bytes("the session's header", t->image + 0x100, t->session + 1, 256);
    expect_bytes("the rest of a begun session", idle, t->session + 257, 256);
    ANSWERS(TEPLOVIST_SESSION_STATE, teplovist_begin(t->image, t->length, t->session));
    expect_no_revert(t->image, t->length, t->session, TEPLOVIST_SESSION_STATE);
}

static void expect_write(struct trial *t, uint64_t size) {
    ANSWERS(TEPLOVIST_ACCEPTED, teplovist_write(t->image, t->length, t->session, t->partition, t->place, t->data, t->n));
    ANSWERS(TEPLOVIST_ACCEPTED, teplovist_read_staged(t->image, t->length, t->session, t->partition, t->place, t->got, t->n));
    expect_bytes("the staged bytes", t->data, t->got, t->n);
    if (t->external)
        expect_bytes("the bytes in place", t->data, t->image + t->outside + t->place, t->n);
    expect_read(t, "the committed bytes before the commit", t->old, 1);
    ANSWERS(TEPLOVIST_OUT_OF_RANGE, teplovist_write(t->image, t->length, t->session, t->partition, size, t->data, 1));
    ANSWERS(TEPLOVIST_NO_PARTITION, teplovist_write(t->image, t->length, t->session, 2, 0, t->data, 1));
}

static void expect_commit(struct trial *t) {
    uint64_t flag = header_of(t->image).flag;
    uint8_t other[TEPLOVIST_SESSION_SIZE], former[256];
    memcpy(other, t->session, sizeof other);
    memcpy(former, t->image + 0x100, sizeof former);
    other[256] ^= 1;
    ANSWERS(TEPLOVIST_STALE, teplovist_commit(t->image, t->length, other));
    ANSWERS(TEPLOVIST_ACCEPTED, teplovist_commit(t->image, t->length, t->session));
    expect_remembered(t->session, former, t->image + 0x100);
    expect("the flag after a commit", 1 - flag, header_of(t->image).flag);
    expect_read(t, "the committed bytes after the commit", t->data, 0);
    ANSWERS(TEPLOVIST_SESSION_STATE, teplovist_read_staged(t->image, t->length, t->session, t->partition, t->place, t->got, t->n));
}

/* A plain commit and a plain revert: the image is the one before, byte for byte. Where another session began since, there is nothing to revert. */
static void expect_revert(struct trial *t) {
    uint8_t *before = allocated(t->length), *after = allocated(t->length), other[TEPLOVIST_SESSION_SIZE] = {0};
    memcpy(before, t->image, t->length);
    expect_commit(t);
    memcpy(after, t->image, t->length);
    ANSWERS(TEPLOVIST_ACCEPTED, teplovist_begin(t->image, t->length, other));
    expect_no_revert(t->image, t->length, t->session, TEPLOVIST_NOTHING_TO_REVERT);
    memcpy(t->image, after, t->length);
    ANSWERS(TEPLOVIST_ACCEPTED, teplovist_revert(t->image, t->length, t->session));
    expect_bytes("the image after a revert", before, t->image, t->length);
    expect_bytes("the session after a revert", idle, t->session, sizeof idle);
    expect_read(t, "the committed bytes after a revert", t->old, 1);
    expect_no_revert(t->image, t->length, t->session, TEPLOVIST_NOTHING_TO_REVERT);
    free(before);
    free(after);
}

static void expect_abandon(struct trial *t) {
    uint8_t front[0x200];
    memcpy(front, t->image, sizeof front);
    ANSWERS(TEPLOVIST_ACCEPTED, teplovist_begin(t->image, t->length, t->session));
    ANSWERS(TEPLOVIST_ACCEPTED, teplovist_write(t->image, t->length, t->session, t->partition, t->place, t->old, t->n));
    ANSWERS(TEPLOVIST_ACCEPTED, teplovist_abandon(t->session));
    expect_bytes("the session after an abandon", idle, t->session, sizeof idle);
    expect_bytes("the header after an abandon", front, t->image, sizeof front);
    expect_read(t, "the committed bytes after an abandon", t->data, 1);
    expect_no_revert(t->image, t->length, t->session, TEPLOVIST_NOTHING_TO_REVERT);
}

/* Writes the first verified block of a partition, commits it and reverts that, commits it again, and abandons another write. */
static void expect_session(uint8_t *image, size_t length, struct level4 level) {
    struct trial t = {0};
    uint64_t block = (uint64_t)1 << level.log;
    size_t i;
    t.image = image;
    t.length = length;
    t.partition = level.partition;
    t.block = first_block(image, length, level, 1);
    t.place = t.block * block;
    t.external = level.external;
    t.outside = level.outside;
    expect("a verified block is there", 1, t.place < level.size);
    t.n = level.size - t.place < block ? level.size - t.place : block;
    t.old = allocated(t.n);
    t.data = allocated(t.n);
    t.got = allocated(t.n);
    ANSWERS(TEPLOVIST_ACCEPTED, teplovist_read_committed(image, length, t.partition, t.place, t.old, t.n));
    for (i = 0; i < t.n; i++)
        t.data[i] = (uint8_t)(t.old[i] + 1 + i % 5);
    expect_begin(&t);
    expect_write(&t, level.size);
    expect_revert(&t);
    expect_begin(&t);
    expect_write(&t, level.size);
    expect_commit(&t);
    expect_abandon(&t);
    free(t.old);
    free(t.data);
    free(t.got);
}

/* Refusals of opening and 8, which leave description and buffer alone. */
static void expect_refusals(const uint8_t *image, size_t length) {
    uint64_t numbers[TEPLOVIST_DESCRIPTION_LENGTH], before[TEPLOVIST_DESCRIPTION_LENGTH];
    uint8_t *zeros = allocated(0x4000001), byte = 0x5A;
    memset(numbers, 0xA5, sizeof numbers);
    memcpy(before, numbers, sizeof numbers);
    ANSWERS(TEPLOVIST_LENGTH, teplovist_open(image, 0x1FF, numbers));
    ANSWERS(TEPLOVIST_LENGTH, teplovist_open(image, 0, numbers));
    ANSWERS(TEPLOVIST_LENGTH, teplovist_open(zeros, 0x4000001, numbers));
    ANSWERS(TEPLOVIST_FORMAT, teplovist_open(zeros, 0x4000000, numbers));
    ANSWERS(TEPLOVIST_FORMAT, teplovist_open(zeros, 0x200, numbers));
    free(zeros);
    expect_bytes("the description of an image that is refused", (uint8_t *)before, (uint8_t *)numbers, sizeof numbers);
    ANSWERS(TEPLOVIST_NO_PARTITION, teplovist_count_verified(image, length, 2));
    ANSWERS(TEPLOVIST_NO_PARTITION, teplovist_read_committed(image, length, UINT64_MAX, 0, &byte, 1));
    expect("the buffer of a read that is refused", 0x5A, byte);
}

/* ---- what is signed, and running digests */

/* A type of block by the paper's table: its letters, its length, and how long the copy of the header is at its end. */
static const struct type {
    const char *letters;
    uint64_t kind, length, header;
} types[6] = {
    [TEPLOVIST_CARD] = {"CTR-NOR0", 0, 0x28, 0},
    [TEPLOVIST_TITLE] = {"CTR-SIGN", 0, 0x30, 0},
    [TEPLOVIST_SYSTEM] = {"CTR-SYS0", 0, 0x110, 0x100},
    [TEPLOVIST_QUOTA] = {"CTR-EXT0", 1, 0x11C, 0x100},
    [TEPLOVIST_DEVICE] = {"CTR-EXT0", 1, 0x11C, 0x100},
    [TEPLOVIST_DATABASE] = {"CTR-9DB0", 1, 0x10C, 0x100},
};

/* The digest of bytes that are fed in two pieces. */
static void digest_in_two(const uint8_t *bytes, size_t cut, size_t length, uint8_t *digest) {
    uint8_t state[TEPLOVIST_DIGEST_STATE_SIZE];
    memset(state, 0xA5, sizeof state);
    teplovist_digest_start(state);
    ANSWERS(TEPLOVIST_ACCEPTED, teplovist_digest_feed(state, bytes, cut));
    ANSWERS(TEPLOVIST_ACCEPTED, teplovist_digest_feed(state, bytes + cut, length - cut));
    ANSWERS(TEPLOVIST_ACCEPTED, teplovist_digest_finish(state, digest));
}

/* The fields of a block, from its letters to its end. */
static void expect_fields(const uint8_t *block, const uint64_t *signer, const uint8_t *header) {
    const struct type *type = &types[signer[0]];
    expect_bytes("the letters", (const uint8_t *)type->letters, block, 8);
    if (signer[0] == TEPLOVIST_TITLE || signer[0] == TEPLOVIST_QUOTA || signer[0] == TEPLOVIST_DEVICE)
        expect("the ID", signer[1], field(block, 8, 8));
    if (signer[0] == TEPLOVIST_SYSTEM)
        expect("the save ID", (uint32_t)signer[1], field(block, 8, 8));
    if (signer[0] == TEPLOVIST_DATABASE)
        expect("the database ID", (uint32_t)signer[1], field(block, 8, 4));
    if (type->length == 0x11C) {
        int device = signer[0] == TEPLOVIST_DEVICE;
        expect("the file's mark", device ? 1 : 0, field(block, 0x10, 4));
        expect("the ID in its name", device ? (uint32_t)signer[2] : 0, field(block, 0x14, 4));
        expect("the ID of its folder", device ? (uint32_t)signer[3] : 0, field(block, 0x18, 4));
    }
    expect_bytes("the header's copy", header, block + type->length - type->header, type->header);
}

/* One type of block of the image, which is of that kind or refused. */
static void expect_signing(const uint8_t *image, size_t length, uint64_t number) {
    const struct type *type = &types[number];
    uint64_t signer[TEPLOVIST_SIGNER_LENGTH] = {number, 0x0123456789ABCDEF, 0xF0E1D2C3B4A59687, 0x1F2E3D4C5B6A7988};
    uint8_t block[TEPLOVIST_BLOCK_SIZE], digest[TEPLOVIST_DIGEST_SIZE], wanted[TEPLOVIST_DIGEST_SIZE];
    uint8_t untouched[TEPLOVIST_BLOCK_SIZE], zeros[TEPLOVIST_BLOCK_SIZE] = {0};
    memset(untouched, 0xA5, sizeof untouched);
    memset(block, 0xA5, sizeof block);
    memset(digest, 0xA5, sizeof digest);
    ANSWERS(TEPLOVIST_LENGTH, teplovist_signing_block(image, 0x1FF, signer, block));
    if (type->kind != header_of(image).kind) {
        ANSWERS(TEPLOVIST_SIGNER_KIND, teplovist_signing_block(image, length, signer, block));
        ANSWERS(TEPLOVIST_SIGNER_KIND, teplovist_signing_digest(image, length, signer, digest));
        expect_bytes("a block that is refused", untouched, block, sizeof block);
        expect_bytes("a digest that is refused", untouched, digest, sizeof digest);
        return;
    }
    expect("signing_block", type->length << 8, teplovist_signing_block(image, length, signer, block));
    expect_fields(block, signer, image + 0x100);
    expect_bytes("the zeros after a block", zeros, block + type->length, sizeof block - type->length);
    ANSWERS(TEPLOVIST_ACCEPTED, teplovist_signing_digest(image, length, signer, digest));
    digest_in_two(block, number * 13, type->length, wanted);
    expect_bytes("the digest of a block", wanted, digest, sizeof digest);
}

/* A digest that the standard's examples print, and a digest that was fed all that it may be. */
static void expect_digests(void) {
    static const uint8_t printed[] = {0xBA, 0x78, 0x16, 0xBF, 0x8F, 0x01, 0xCF, 0xEA, 0x41, 0x41, 0x40, 0xDE, 0x5D, 0xAE, 0x22, 0x23,
                                      0xB0, 0x03, 0x61, 0xA3, 0x96, 0x17, 0x7A, 0x9C, 0xB4, 0x10, 0xFF, 0x61, 0xF2, 0x00, 0x15, 0xAD};
    static const uint8_t most[] = {0xFF, 0xFF, 0xFF, 0xFF, 0xFF, 0xFF, 0xFF, 0x1F};
    uint8_t state[TEPLOVIST_DIGEST_STATE_SIZE] = {0}, before[TEPLOVIST_DIGEST_STATE_SIZE], digest[TEPLOVIST_DIGEST_SIZE];
    uint8_t kept[TEPLOVIST_DIGEST_SIZE];
    digest_in_two((const uint8_t *)"abc", 1, 3, digest);
    expect_bytes("the digest of abc", printed, digest, sizeof digest);
    memcpy(state + 96, most, sizeof most);
    memcpy(before, state, sizeof before);
    ANSWERS(TEPLOVIST_ACCEPTED, teplovist_digest_feed(state, before, 0));
    ANSWERS(TEPLOVIST_DIGEST_TOO_LONG, teplovist_digest_feed(state, before, 1));
    expect_bytes("a running digest that is refused", before, state, sizeof state);
    ANSWERS(TEPLOVIST_ACCEPTED, teplovist_digest_finish(state, digest));
    memcpy(kept, digest, sizeof kept);
    state[103] = 0x20;
    ANSWERS(TEPLOVIST_DIGEST_TOO_LONG, teplovist_digest_feed(state, before, 0));
    ANSWERS(TEPLOVIST_DIGEST_TOO_LONG, teplovist_digest_finish(state, digest));
    expect_bytes("the digest of a call that is refused", kept, digest, sizeof digest);
}

/* ---- signed opening and signed commits */

static uint64_t open_signed(const uint8_t *image, size_t length, const uint8_t *key, const uint64_t *signer) {
    uint64_t numbers[TEPLOVIST_DESCRIPTION_LENGTH], answer;
    memset(numbers, 0xA5, sizeof numbers);
    answer = teplovist_open_signed(image, length, key, signer, numbers);
    if (answer == TEPLOVIST_ACCEPTED)
        expect_bytes("a signed image's description", (const uint8_t *)description, (const uint8_t *)numbers, sizeof numbers);
    else
        expect("the description of a signed image that is refused", 0xA5A5A5A5A5A5A5A5, numbers[TEPLOVIST_KIND]);
    return answer;
}

/* What a signed commit on `before` left is reverted, in a copy: signed, so that it opens under the key, and plainly, so that its signature stays. */
static void expect_signed_back(const uint8_t *before, const uint8_t *image, size_t length, const uint8_t *remembered, const uint8_t *key,
                               const uint64_t *signer) {
    uint64_t foreign[TEPLOVIST_SIGNER_LENGTH] = {(signer[0] + 3) % 6, 0, 0, 0};
    uint8_t session[TEPLOVIST_SESSION_SIZE], *back = allocated(length);
    memcpy(back, image, length);
    memcpy(session, remembered, sizeof session);
    ANSWERS(TEPLOVIST_SIGNER_KIND, teplovist_revert_signed(back, length, session, key, foreign));
    expect_bytes("the image after a signed revert that is refused", image, back, length);
    ANSWERS(TEPLOVIST_ACCEPTED, teplovist_revert_signed(back, length, session, key, signer));
    expect_bytes("the image after a signed revert", before + 0x10, back + 0x10, length - 0x10);
    expect_bytes("the session after a signed revert", idle, session, sizeof idle);
    ANSWERS(TEPLOVIST_NOTHING_TO_REVERT, teplovist_revert_signed(back, length, session, key, foreign));
    expect_description(back, length);
    ANSWERS(TEPLOVIST_ACCEPTED, open_signed(back, length, key, signer));
    memcpy(back, image, length);
    memcpy(session, remembered, sizeof session);
    ANSWERS(TEPLOVIST_ACCEPTED, teplovist_revert(back, length, session));
    expect_bytes("the signature after a plain revert", image, back, 0x10);
    expect_bytes("the image after a plain revert", before + 0x10, back + 0x10, length - 0x10);
    ANSWERS(TEPLOVIST_SIGNATURE, open_signed(back, length, key, signer));
    free(back);
    expect_description(image, length);
}

/* A signer of the container's kind signs a commit; the image then opens under its key, and under no other. */
static void expect_signed(uint8_t *image, size_t length, uint64_t number) {
    uint64_t signer[TEPLOVIST_SIGNER_LENGTH] = {number, 0x0123456789ABCDEF, 1, 2}, other[TEPLOVIST_SIGNER_LENGTH] = {number, 1, 3, 4};
    uint8_t session[TEPLOVIST_SESSION_SIZE] = {0}, key[TEPLOVIST_KEY_SIZE] = {1, 2, 3}, between[0xF0], *before;
    if (types[number].kind != header_of(image).kind) {
        ANSWERS(TEPLOVIST_SIGNER_KIND, open_signed(image, length, key, signer));
        ANSWERS(TEPLOVIST_ACCEPTED, teplovist_begin(image, length, session));
        ANSWERS(TEPLOVIST_SIGNER_KIND, teplovist_commit_signed(image, length, session, key, signer));
        ANSWERS(TEPLOVIST_ACCEPTED, teplovist_abandon(session));
        return;
    }
    memcpy(between, image + 0x10, sizeof between);
    ANSWERS(TEPLOVIST_SIGNATURE, open_signed(image, length, key, signer));
    ANSWERS(TEPLOVIST_SESSION_STATE, teplovist_commit_signed(image, length, session, key, signer));
    ANSWERS(TEPLOVIST_ACCEPTED, teplovist_begin(image, length, session));
    ANSWERS(TEPLOVIST_SESSION_STATE, teplovist_revert_signed(image, length, session, key, signer));
    before = allocated(length);
    memcpy(before, image, length);
    ANSWERS(TEPLOVIST_ACCEPTED, teplovist_commit_signed(image, length, session, key, signer));
    expect_remembered(session, before + 0x100, image + 0x100);
    expect_bytes("the bytes behind the signature", between, image + 0x10, sizeof between);
    expect_description(image, length);
    ANSWERS(TEPLOVIST_ACCEPTED, open_signed(image, length, key, signer));
    expect_signed_back(before, image, length, session, key, signer);
    free(before);
    if (number != TEPLOVIST_CARD)
        ANSWERS(TEPLOVIST_SIGNATURE, open_signed(image, length, key, other));
    key[15] ^= 1;
    ANSWERS(TEPLOVIST_SIGNATURE, open_signed(image, length, key, signer));
    key[15] ^= 1;
    image[15] ^= 1;
    ANSWERS(TEPLOVIST_SIGNATURE, open_signed(image, length, key, signer));
}

/* No sample is a save: a listing and a search are refused, and the row stays as it was. */
static void expect_no_save(const uint8_t *image, size_t length) {
    uint8_t row[2 * TEPLOVIST_NAME_RECORD], before[2 * TEPLOVIST_NAME_RECORD], name[TEPLOVIST_NAME_SIZE];
    memset(row, 0x55, sizeof row);
    memset(before, 0x55, sizeof before);
    memset(name, 'a', sizeof name);
    ANSWERS(TEPLOVIST_NO_SAVE, teplovist_list_names(image, length, row, sizeof row));
    expect_bytes("the row of a refused listing", before, row, sizeof row);
    ANSWERS(TEPLOVIST_NO_SAVE, teplovist_find_file(image, length, 1, name));
}

static void run(uint8_t *image, size_t length) {
    uint64_t q;
    expect_description(image, length);
    if (wrong != 0)
        return; /* the numbers are not to be relied on */
    expect_refusals(image, length);
    expect_no_save(image, length);
    for (q = 0; q < sizeof types / sizeof *types; q++)
        expect_signing(image, length, q);
    for (q = 0; q < description[TEPLOVIST_PARTITIONS]; q++) {
        struct level4 level = level4_of(q);
        expect_committed(image, length, level);
        expect_faults(image, length, level);
        expect_damage(image, length, level);
        expect_limits(image, length, level);
        expect_session(image, length, level);
        expect_committed(image, length, level);
        expect_description(image, length);
    }
    for (q = 0; q < sizeof types / sizeof *types; q++)
        expect_signed(image, length, q);
}

/* The file's bytes; a sample is shorter than 64 KiB. */
static uint8_t *load(const char *path, size_t *length) {
    static uint8_t buffer[0x10000];
    FILE *file = fopen(path, "rb");
    uint8_t *image;
    if (!file)
        return NULL;
    *length = fread(buffer, 1, sizeof buffer, file);
    fclose(file);
    image = allocated(*length);
    memcpy(image, buffer, *length);
    return image;
}

int main(int count, char **arguments) {
    int i;
    for (i = 1; i < count; i++) {
        size_t length = 0;
        uint8_t *image = load(arguments[i], &length);
        image_name = arguments[i];
        if (!image) {
            printf("%s: cannot be read\n", image_name);
            return 1;
        }
        run(image, length);
        free(image);
    }
    image_name = "digests";
    expect_digests();
    image_name = "the images";
    expect("pairs of names that are alike", 0, pairs_alike(&header_names) + pairs_alike(&partition_names));
    printf("session: %d images, %u compared, %u wrong\n", count - 1, compared, wrong);
    return wrong != 0 || count < 2;
}
