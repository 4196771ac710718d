/*
 * The stack that the calls with marks take: each is called on a thread that has as much as include/teplovist.h says, the fault list on one that has
 * half of that, or as much as is given.
 *
 * Usage: stack [CALL BYTES], where CALL is list_names, faults or find_file. Status 1 if an answer is wrong; a thread that has too little ends the program.
 */
#define _POSIX_C_SOURCE 200809L
#include "teplovist.h"

#include <pthread.h>
#include <stdio.h>
#include <stdlib.h>
#include <string.h>

/* The deepest folder is so many levels below the root. */
enum { DEEPEST = 1000 };

/* Where things stand in level 4: a bucket of folders and one of files, the folders' table, and the files' table. */
enum { UNIT = 0x200, BUCKETS = 0x200, FOLDERS = 0x400, FOLDER_SIZE = 0x28, FILES = 0xA200, BLOCKS = 11, BLOCK = 0x1000 };

static uint8_t level4[BLOCKS * BLOCK];
static uint8_t row[(DEEPEST + 1) * TEPLOVIST_NAME_RECORD];
static teplovist_fault faults[8];
static uint8_t *image;
static size_t length;

static void put(size_t at, uint32_t value) {
    for (int k = 0; k < 4; k++)
        level4[at + k] = (uint8_t)(value >> 8 * k);
}

/* A save of folders alone, each but the last with the next one in it; the root is number 1. */
static void fill(void) {
    memcpy(level4, "SAVE\0\0\4\0", 8);
    put(0x24, UNIT);
    put(0x28, BUCKETS);
    put(0x30, 1);
    put(0x38, BUCKETS + 4);
    put(0x40, 1);
    put(0x58, FOLDERS);
    put(0x70, DEEPEST);
    put(0x78, (FILES - FOLDERS) / UNIT);
    put(0x80, 1);
    put(FOLDERS, DEEPEST + 2);
    put(FILES, 1);
    for (uint32_t number = 1; number <= DEEPEST; number++)
        put(FOLDERS + FOLDER_SIZE * number + 0x18, number + 1);
}

static int make(void) {
    static uint8_t session[TEPLOVIST_SESSION_SIZE];
    length = teplovist_blank_length(BLOCKS);
    image = malloc(length);
    fill();
    return image && !teplovist_make_blank(image, length, 0, BLOCKS) && !teplovist_begin(image, length, session)
        && !teplovist_write(image, length, session, 0, 0, level4, sizeof level4) && !teplovist_commit(image, length, session);
}

static void *list_names(void *answer) {
    *(uint64_t *)answer = teplovist_list_names(image, length, row, sizeof row);
    return NULL;
}

static void *list_faults(void *answer) {
    *(uint64_t *)answer = teplovist_faults(image, length, faults, sizeof faults / sizeof *faults);
    return NULL;
}

static void *find_file(void *answer) {
    static const uint8_t name[TEPLOVIST_NAME_SIZE] = {'x'};
    *(uint64_t *)answer = teplovist_find_file(image, length, DEEPEST, name);
    return NULL;
}

/* How much stack each call is given, and what it is to answer. The fault list's marks take 131,088 bytes, once. */
static const struct {
    const char *name;
    void *(*call)(void *);
    size_t bytes;
    uint64_t value;
} calls[] = {{"list_names", list_names, 1500000, DEEPEST + 1}, {"faults", list_faults, 250000, 0}, {"find_file", find_file, 300000, 0}};

/* Whether a call answers as it should on a thread with so much stack. */
static int holds(size_t call, size_t bytes) {
    pthread_attr_t attributes;
    pthread_t thread;
    uint64_t answer = ~(uint64_t)0;
    if (pthread_attr_init(&attributes) || pthread_attr_setstacksize(&attributes, bytes) || pthread_create(&thread, &attributes, calls[call].call, &answer)
        || pthread_join(thread, NULL))
        return 0;
    printf("%s on %zu bytes: %llx\n", calls[call].name, bytes, (unsigned long long)answer);
    return TEPLOVIST_REFUSAL(answer) == 0 && TEPLOVIST_VALUE(answer) == calls[call].value;
}

int main(int count, char **words) {
    int good = make();
    for (size_t call = 0; call < sizeof calls / sizeof *calls; call++)
        if (count < 3 || !strcmp(words[1], calls[call].name))
            good &= holds(call, count < 3 ? calls[call].bytes : strtoul(words[2], NULL, 0));
    return !good;
}
