/*
 * Teplovist: DISA and DIFF save containers.
 *
 * A call works on what the caller lends it, an image that is decrypted and whole or a running digest, and keeps nothing between calls. The
 * first 16 bytes of an image are its signature: the AES-CMAC, under a key that the host hands in, of the SHA-256 of the block that
 * teplovist_signing_block builds. teplovist_open_signed checks it, teplovist_commit_signed and teplovist_revert_signed store it with the header;
 * no other call reads it, and none but that for a blank image changes it, so that after a plain commit the host signs again. No call reads the
 * bytes from 0x10 to 0xFF, and only that for a blank image changes them.
 *
 * A pointer and a length lend that many bytes for the call. Both are taken as they are, so they must be right: no pointer may be null, not
 * even where the length is 0 (it is not followed then); the bytes must be there, in one object, so no length is above PTRDIFF_MAX; a session
 * is 513 bytes, a key 16, a name 16, a block 284, a running digest 104 and a digest 32; a description is 80 numbers and a signer 4, and these and
 * fault records are aligned as a uint64_t is. Of a call that breaks this nothing is promised, no refusal either. A length that is right, but too much, is refused: an image
 * above 0x4000000 bytes by 1, a buffer or data past level 4's end by 9, and a piece that makes a message too long by 22.
 *
 * Two arguments of one call must not overlap. Any number of calls may read one image at a time; a call that changes one must be alone with it.
 */
#ifndef TEPLOVIST_H
#define TEPLOVIST_H

#include <stddef.h>
#include <stdint.h>

#ifdef __cplusplus
extern "C" {
#endif

/*
 * Answers. The low 8 bits of an answer are 0 if the call is accepted and else the refusal's number; the bits above are a value: for an
 * accepted teplovist_verified 1 for yes and 0 for no, for an accepted teplovist_count_verified the count, for an accepted teplovist_faults
 * the number of all faults, for an accepted teplovist_signing_block the block's length, for an accepted teplovist_list_names the number of
 * names, for an accepted teplovist_find_file the file's entry number or 0 for none, for the refusal 10 the lowest block of level 4 to which
 * it applies, and else 0. The first check that fails decides; a call that is refused changes nothing, but for 17: a write's ends the
 * session and may have changed what a write changes, and that of a blank image leaves zeros.
 */
#define TEPLOVIST_REFUSAL(answer) ((unsigned)((answer) & 0xFF))
#define TEPLOVIST_VALUE(answer) ((uint64_t)(answer) >> 8)

enum {
    TEPLOVIST_ACCEPTED = 0,
    TEPLOVIST_LENGTH = 1,           /* the image is not 0x200 to 0x4000000 bytes long */
    TEPLOVIST_FORMAT = 2,           /* the first eight header bytes are neither kind */
    TEPLOVIST_SELECTION = 3,        /* a partition count other than 1 or 2, an active flag other than 0 or 1, or fields of a B that is not there */
    TEPLOVIST_GEOMETRY = 4,         /* a range, a size or a disjointness rule of the header */
    TEPLOVIST_TABLE_HASH = 5,       /* the active table's SHA-256 differs */
    TEPLOVIST_DESCRIPTOR = 6,       /* a descriptor's opening bytes, piece sizes, selector, logarithms or level sizes */
    TEPLOVIST_PLACEMENT = 7,        /* a descriptor's places, disjointness or number of entries */
    TEPLOVIST_NO_PARTITION = 8,     /* there is no such partition */
    TEPLOVIST_OUT_OF_RANGE = 9,     /* place plus length exceeds level 4's size; there is no such block */
    TEPLOVIST_UNVERIFIED = 10,      /* read and names: a touched block is not verified; write: one that it covers only in part is not */
    TEPLOVIST_SESSION_STATE = 13,   /* the session is idle where begun is needed, or begun where idle is */
    TEPLOVIST_STALE = 14,           /* the header is not the remembered one, or the inactive table is not the active one with its selectors flipped and any master hashes */
    TEPLOVIST_SIGNER_KIND = 15,     /* the container's kind does not fit the signer's type */
    TEPLOVIST_SIGNATURE = 16,       /* the first 16 bytes are not the signature */
    TEPLOVIST_ZERO_DIGEST = 17,     /* a digest that the finished write, or the blank image, would hold is all zero */
    TEPLOVIST_INVALID_ENTRY = 18,   /* names: an entry number that is not in use, an entry met twice, or a folder that is too deep */
    TEPLOVIST_NO_SAVE = 19,         /* names: another kind of container, or no SAVE header whose tables lie in level 4 */
    TEPLOVIST_BLANK_SIZE = 20,      /* blank image: not 1 to 4096 blocks, or the lent image is not just as long */
    TEPLOVIST_NOTHING_TO_REVERT = 21, /* revert: no commit is remembered, the header is not the one after it, or the one before does not open */
    TEPLOVIST_DIGEST_TOO_LONG = 22  /* a running digest was fed, or would be, more than 2^61 - 1 bytes */
};

/*
 * A session is 513 bytes that the caller keeps: the first is 0 for idle and anything else for begun, then come two headers of 256 bytes each. A
 * begun session has the header that it began on, and zeros. An idle one has the headers before and after the last commit in it, which
 * teplovist_revert goes by. All zero is an idle session that remembers nothing, to start with.
 *
 * A host that kept the 257 bytes of a session from before there was teplovist_revert copies them and fills the other 256 with zeros: a begun
 * session goes on, and all zero is still an idle one.
 */
#define TEPLOVIST_SESSION_SIZE 513

/*
 * A description is 80 numbers: 8 for the header, from 0 on, and 36 for each partition, A's from 8 on and B's from 44 on. A partition's
 * number is at TEPLOVIST_A or TEPLOVIST_B plus its index. Where there is no B its numbers are 0, as are those that no name below has.
 */
#define TEPLOVIST_DESCRIPTION_LENGTH 80

enum {
    TEPLOVIST_KIND = 0,             /* 0 for DISA, 1 for DIFF */
    TEPLOVIST_PARTITIONS = 1,       /* 1 or 2 */
    TEPLOVIST_ACTIVE_TABLE = 2,     /* 0 for the primary table, 1 for the secondary */
    TEPLOVIST_SECONDARY_OFFSET = 3, /* from the image's start */
    TEPLOVIST_SECONDARY_SIZE = 4,
    TEPLOVIST_PRIMARY_OFFSET = 5,
    TEPLOVIST_PRIMARY_SIZE = 6,

    TEPLOVIST_A = 8,
    TEPLOVIST_B = 44
};

enum {
    TEPLOVIST_DESCRIPTOR_OFFSET = 0, /* from the table's start */
    TEPLOVIST_DESCRIPTOR_SIZE = 1,
    TEPLOVIST_PARTITION_OFFSET = 2, /* from the image's start */
    TEPLOVIST_PARTITION_SIZE = 3,
    TEPLOVIST_IVFC_OFFSET = 4,      /* the three pieces: from the descriptor's start */
    TEPLOVIST_IVFC_SIZE = 5,
    TEPLOVIST_DPFS_OFFSET = 6,
    TEPLOVIST_DPFS_SIZE = 7,
    TEPLOVIST_MASTER_HASH_OFFSET = 8,
    TEPLOVIST_MASTER_HASH_SIZE = 9, /* 32 bytes for each of its 1 to 64 entries */
    TEPLOVIST_EXTERNAL = 10,        /* 1 if level 4 is external, else 0 */
    TEPLOVIST_SELECTOR = 11,        /* the half of DPFS level 1 that is live */
    TEPLOVIST_EXTERNAL_OFFSET = 12, /* from the partition's start; 0 unless external */
    TEPLOVIST_IVFC_LEVEL1_OFFSET = 13, /* the IVFC levels: within DPFS level 3 */
    TEPLOVIST_IVFC_LEVEL1_SIZE = 14,
    TEPLOVIST_IVFC_LEVEL1_LOG = 15,
    TEPLOVIST_IVFC_LEVEL2_OFFSET = 16,
    TEPLOVIST_IVFC_LEVEL2_SIZE = 17,
    TEPLOVIST_IVFC_LEVEL2_LOG = 18,
    TEPLOVIST_IVFC_LEVEL3_OFFSET = 19,
    TEPLOVIST_IVFC_LEVEL3_SIZE = 20,
    TEPLOVIST_IVFC_LEVEL3_LOG = 21,
    TEPLOVIST_IVFC_LEVEL4_OFFSET = 22, /* 0 if external */
    TEPLOVIST_IVFC_LEVEL4_SIZE = 23,
    TEPLOVIST_IVFC_LEVEL4_LOG = 24,
    TEPLOVIST_DPFS_LEVEL1_OFFSET = 25, /* the DPFS levels: from the partition's start; each size is that of one half */
    TEPLOVIST_DPFS_LEVEL1_SIZE = 26,
    TEPLOVIST_DPFS_LEVEL2_OFFSET = 27,
    TEPLOVIST_DPFS_LEVEL2_SIZE = 28,
    TEPLOVIST_DPFS_LEVEL2_LOG = 29,
    TEPLOVIST_DPFS_LEVEL3_OFFSET = 30,
    TEPLOVIST_DPFS_LEVEL3_SIZE = 31,
    TEPLOVIST_DPFS_LEVEL3_LOG = 32
};

/*
 * A signer is 4 numbers: its type, an ID, and for a device file the ID in the file's name and the ID of its folder. The type counts modulo
 * 6, a save ID, a database ID and a device file's two modulo 2^32; a number that a type has no use for is not looked at.
 */
#define TEPLOVIST_SIGNER_LENGTH 4

enum {
    TEPLOVIST_CARD = 0,             /* CTR-NOR0: a game card's save; DISA, a block of 0x28 bytes */
    TEPLOVIST_TITLE = 1,            /* CTR-SIGN: a save on an SD card, by its title ID; DISA, 0x30 bytes */
    TEPLOVIST_SYSTEM = 2,           /* CTR-SYS0: a system save, by its save ID; DISA, 0x110 bytes */
    TEPLOVIST_QUOTA = 3,            /* CTR-EXT0: Quota.dat, by the extdata ID; DIFF, 0x11C bytes */
    TEPLOVIST_DEVICE = 4,           /* CTR-EXT0: a device file, by the extdata ID; DIFF, 0x11C bytes */
    TEPLOVIST_DATABASE = 5          /* CTR-9DB0: a title database, by its ID; DIFF, 0x10C bytes */
};

/* The longest block. A block stands at the front of so many bytes, with zeros after it. */
#define TEPLOVIST_BLOCK_SIZE 284

#define TEPLOVIST_DIGEST_SIZE 32

/* A key for signing. It is read, and nothing of it is kept; how long a call takes may depend on it. */
#define TEPLOVIST_KEY_SIZE 16

/*
 * A name of a listing is a record of 24 bytes. Byte 0 is the kind, 0 for a folder and 1 for a file, and bytes 1 to 3 are 0; bytes 4 to 7 are the
 * entry's number, the least significant first; bytes 8 to 23 are the 16 name bytes as the entry has them. The root is the first name: a folder,
 * number 1.
 */
#define TEPLOVIST_NAME_RECORD 24
#define TEPLOVIST_NAME_SIZE 16

/*
 * A running digest is 104 bytes that the caller keeps: the hash value's eight words, the block whose front waits to be full (what stands
 * behind the front has no meaning), and how many bytes were fed, each number with its least significant byte first. Any 104 bytes are one, but
 * only what teplovist_digest_start made, and was then fed, is the digest of a message.
 */
#define TEPLOVIST_DIGEST_STATE_SIZE 104

/*
 * The calls from teplovist_open to teplovist_find_file, but for teplovist_abandon, open the image first and may be refused with 1
 * to 7. teplovist_abandon and the calls on a running digest take no image; the two calls for a signer look at its length and its header alone,
 * and the call for a blank image at its length.
 */

/* Opens an image and stores its 80 numbers. Refusals: 1 to 7. */
uint64_t teplovist_open(const uint8_t *image, size_t image_length, uint64_t *description);

/*
 * The same of an image that must be signed under a key by a signer. Refusals: 1, 2, 3, then 15, then 16 if the first 16 bytes are not the
 * signature, then 4 to 7.
 */
uint64_t teplovist_open_signed(const uint8_t *image, size_t image_length, const uint8_t *key, const uint64_t *signer,
                               uint64_t *description);

/*
 * Reads buffer_length bytes of a partition's level 4 from a place on, as the active table has it: the whole buffer is filled, or no byte
 * of it changes. Partition A is 0, B is 1. Refusals: 8, 9, 10.
 */
uint64_t teplovist_read_committed(const uint8_t *image, size_t image_length, uint64_t partition, uint64_t place,
                                  uint8_t *buffer, size_t buffer_length);

/* The same of what the session has staged. Refusals: 13, 14, 8, 9, 10. */
uint64_t teplovist_read_staged(const uint8_t *image, size_t image_length, const uint8_t *session, uint64_t partition,
                               uint64_t place, uint8_t *buffer, size_t buffer_length);

/* Whether a block of a partition's level 4 is verified, as the active table has it. Refusals: 8, 9. */
uint64_t teplovist_verified(const uint8_t *image, size_t image_length, uint64_t partition, uint64_t block);

/* How many blocks of a partition's level 4 are verified, as the active table has it. Refusals: 8. */
uint64_t teplovist_count_verified(const uint8_t *image, size_t image_length, uint64_t partition);

/* A block that is not verified: its partition (0 is A and 1 is B), its level (1 to 4) and its number. */
typedef struct {
    uint64_t partition;
    uint64_t level;
    uint64_t block;
} teplovist_fault;

/*
 * The fault list: every block of levels 1 to 4 of every partition that is not verified, as the active table has it; below a hash block that is not
 * verified each block is a fault. Partition A comes first, then the levels from 1 up, then the blocks by number. The row, of row_length records,
 * gets the first ones, as far as it goes; records past the last fault are left alone. The value of the answer is the number of all faults, also
 * where the row is shorter. Each block is hashed once at most. It needs less than half a megabyte of stack, for its marks. Refusals: only those of
 * opening; the row is untouched then.
 */
uint64_t teplovist_faults(const uint8_t *image, size_t image_length, teplovist_fault *row, size_t row_length);

/*
 * Starts a session: stages a copy of the committed view, and remembers the header. The last commit is then forgotten: it can be reverted no
 * more. Refusals: 13 if begun.
 */
uint64_t teplovist_begin(uint8_t *image, size_t image_length, uint8_t *session);

/*
 * Writes data to a partition's staged level 4 from a place on and brings its hashes up to date. A hash block above it that is not verified is
 * rebuilt: every entry is zero but those above what was written, so that no other block starts to be verified. The committed view of an
 * internal level 4 does not change.
 *
 * BEWARE: an external level 4 (TEPLOVIST_EXTERNAL) is written IN PLACE: the committed view's touched blocks may fail to verify until the commit,
 * and abandoning brings nothing back, nor does 17, a crash before the commit, or a revert after it.
 *
 * Refusals: 13, 14, 8, 9, 10, and last 17. With 17 the session is idle, all its bytes zero, and staged bytes, or those in place, may have
 * changed; with any other answer the session's bytes stay.
 */
uint64_t teplovist_write(uint8_t *image, size_t image_length, uint8_t *session, uint64_t partition, uint64_t place,
                         const uint8_t *data, size_t data_length);

/*
 * Makes the staged view the committed one, by a store of the header alone; the session is idle, and remembers the headers before and after for
 * teplovist_revert. The image's AES-CMAC no longer fits: sign again. Refusals: 13, 14.
 */
uint64_t teplovist_commit(uint8_t *image, size_t image_length, uint8_t *session);

/*
 * The same with a signature: stores the signature of the new header, under a key by a signer, together with that header, so that
 * teplovist_open_signed accepts the image. What must land in one piece is then the first 0x200 bytes: the 16 at the front and the 256 from
 * 0x100 on are stored, and those between them stay. The old signature is not looked at. Refusals: 13, 14, 15.
 */
uint64_t teplovist_commit_signed(uint8_t *image, size_t image_length, uint8_t *session, const uint8_t *key,
                                 const uint64_t *signer);

/*
 * One step back: restores the header before the last commit in this session, plain or signed, by a store of the header alone; the session then
 * remembers nothing. If no begin was accepted on the image since, nor anything else changed it, it is as it was right before that commit, byte
 * for byte, but for a signature that the commit stored: that stays, and fits no more. Refusals: 13 if begun, 21.
 */
uint64_t teplovist_revert(uint8_t *image, size_t image_length, uint8_t *session);

/*
 * The same with a signature: stores the signature of the restored header, under a key by a signer, together with that header, as
 * teplovist_commit_signed does, so that teplovist_open_signed accepts the image. The signer's type must fit the restored header's kind, which is the
 * present one's where the session's own commit is taken back. Refusals: 13 if begun, 21, 15.
 */
uint64_t teplovist_revert_signed(uint8_t *image, size_t image_length, uint8_t *session, const uint8_t *key,
                                 const uint64_t *signer);

/*
 * Ends a session without a look at the image: what it staged is forgotten, and it remembers no commit. What was written to an external level 4
 * stays written. Refusals: 13.
 */
uint64_t teplovist_abandon(uint8_t *session);

/*
 * Lists the folders and files of a SAVE image, as the active table has it: a folder's own entry, its files in sibling order, then each of its
 * subfolders in the same way. The answer's value is the number of all names. The row is row_length bytes; it holds the first row_length / 24 names,
 * and no byte past the last name's record changes. A row of no bytes serves to count. Refusals: 19 for a container other than a DISA of one
 * partition with internal level 4, or for level 4 shorter than the header's 0x88 bytes; then, whichever is met first, 10 with the lowest block that
 * is not verified of those that a read touches, 19 for what the header says, and 18.
 *
 * The walk calls itself for each folder, at most 1,000 levels below the root. It needs half a megabyte of stack for its marks, and 1.5 MB at the
 * deepest (measured on x86-64).
 */
uint64_t teplovist_list_names(const uint8_t *image, size_t image_length, uint8_t *row, size_t row_length);

/*
 * Finds the file that has a name in the folder with that number: the answer's value is its entry number, or 0 if there is none. The name is
 * compared in all 16 bytes. Only the chain of the name's bucket is walked. The folder's number is not judged; above 2^32 - 1 it is in no entry, and
 * the chain is that of the number modulo 2^32. It needs 0.3 MB of stack. Refusals as of teplovist_list_names.
 */
uint64_t teplovist_find_file(const uint8_t *image, size_t image_length, uint64_t folder, const uint8_t *name);

/*
 * Stores the block that a signer signs of an image; the answer's value is its length. The header is taken as it is, whatever its fields
 * say: the image need not open. All 284 bytes are stored, or none changes. Refusals: 1, 2, 15.
 */
uint64_t teplovist_signing_block(const uint8_t *image, size_t image_length, const uint64_t *signer, uint8_t *block);

/* Stores the SHA-256 of that block, 32 bytes. Refusals: 1, 2, 15. */
uint64_t teplovist_signing_digest(const uint8_t *image, size_t image_length, const uint64_t *signer, uint8_t *digest);

/* Starts a running digest (SHA-256): it was fed nothing. */
void teplovist_digest_start(uint8_t *state);

/*
 * Feeds a piece of a message to a running digest. Whatever pieces a message is cut into, the digest is that of the whole. Refusals: 22, also
 * for a piece of no bytes where too many were fed already.
 */
uint64_t teplovist_digest_feed(uint8_t *state, const uint8_t *piece, size_t piece_length);

/* Stores the digest of what was fed, 32 bytes. The running digest is only read, and may be fed further. Refusals: 22. */
uint64_t teplovist_digest_finish(const uint8_t *state, uint8_t *digest);

/* How many bytes to lend for a blank image of 1 to 4096 blocks, and 0 for any other number of blocks. It is no answer, but the number itself. */
uint64_t teplovist_blank_length(uint64_t blocks);

/*
 * Makes the lent image a blank one, whatever its bytes are: one partition, whose internal level 4 has so many blocks of 0x1000 bytes, all zero
 * and verified. It opens and takes sessions; it is not signed, its first 0x100 bytes are zero. The kind counts modulo 2: 0 for DISA, 1 for
 * DIFF. Refusals: 20 if the number of blocks is not 1 to 4096 or the length is not teplovist_blank_length of it, and no byte changes; then 17,
 * and every byte is zero.
 */
uint64_t teplovist_make_blank(uint8_t *image, size_t image_length, uint64_t kind, uint64_t blocks);

#ifdef __cplusplus
}
#endif

#endif
