/* Uses every call of the library, once to get something done and once to be refused, and prints each answer.
 *
 *     every_call IMAGE PATH
 *
 * PATH is that of a program on the image. With any C compiler, after ./make-archive:
 *
 *     cc -I include examples/c/every_call.c target/native/libjufferdeeg.a -o every_call */
#include <stdio.h>
#include <string.h>

#include "jufferdeeg.h"

#define ROOM 65536
#define MOST JUFFERDEEG_MOST_HUNKS

/* One byte more than an image, to see that a file is longer. */
static uint8_t image[JUFFERDEEG_MOST_IMAGE_BYTES + 1];
static uint8_t claim[JUFFERDEEG_MOST_CLAIM_BYTES];
static uint8_t file[ROOM], memory[ROOM], fresh[ROOM], work[ROOM];
static struct jufferdeeg_hunk table[MOST], fresh_table[MOST];
static uint32_t here[MOST], there[MOST];

static const char *yes_or_no(int is) {
    return is ? "yes" : "no";
}

static int all_are(const uint8_t *bytes, size_t count, uint8_t value) {
    for (size_t i = 0; i < count; i++) {
        if (bytes[i] != value) {
            return 0;
        }
    }
    return 1;
}

/* Asks for the sentence of a number, with room for all of it and for 9 bytes. */
static void reason(uint32_t number) {
    uint8_t room[JUFFERDEEG_REASON_BYTES + 1], few[10];
    memset(room, 0, sizeof room);
    memset(few, 0, sizeof few);
    size_t bytes = jufferdeeg_reason(number, room, JUFFERDEEG_REASON_BYTES);
    jufferdeeg_reason(number, few, sizeof few - 1);
    printf("reason of %u: %zu bytes, \"%s\"; of 9 bytes, \"%s\"\n", number, bytes, (char *)room, (char *)few);
}

static void audit(const char *what, uint32_t disk_blocks, size_t image_bytes) {
    struct jufferdeeg_audit_numbers a = jufferdeeg_audit(disk_blocks, image, image_bytes, claim, sizeof claim);
    size_t claimed = 0;
    for (size_t k = 0; k < sizeof claim; k++) {
        claimed += claim[k];
    }
    printf("audit %s: number %u, place %zu, ", what, a.number, a.place);
    printf("directories %u, files %u, list blocks %u, data blocks %u, ", a.directories, a.files, a.list_blocks,
           a.data_blocks);
    printf("used %u, free %u; claimed %zu\n", a.used, a.free, claimed);
}

static void find(size_t image_bytes, const char *path) {
    struct jufferdeeg_find_numbers f =
        jufferdeeg_find(JUFFERDEEG_DOUBLE_DENSITY, image, image_bytes, (const uint8_t *)path, strlen(path));
    printf("find \"%s\": number %u, place %zu, kind %X, key %u, size %u, compared %u\n", path, f.number, f.place,
           f.kind, f.key, f.size, f.compared);
}

/* Reads into room that is full of AA, and says whether what is after the bytes is so still. */
static size_t read_file(size_t image_bytes, const char *path, size_t offset) {
    memset(file, 0xAA, sizeof file);
    struct jufferdeeg_read_numbers r = jufferdeeg_read(JUFFERDEEG_DOUBLE_DENSITY, image, image_bytes,
                                                       (const uint8_t *)path, strlen(path), offset, file, sizeof file);
    printf("read \"%s\" from %zu: number %u, place %zu, count %zu; the rest stays: %s\n", path, offset, r.number,
           r.place, r.count, yes_or_no(all_are(file + r.count, sizeof file - r.count, 0xAA)));
    return r.count;
}

/* The check of a file that was read: how many hunks it has. */
static uint32_t check(const char *what, size_t file_bytes) {
    struct jufferdeeg_program_numbers p = jufferdeeg_check(file, file_bytes);
    printf("check of %s: number %u, place %zu, hunks %u, bytes %zu\n", what, p.number, p.place, p.hunks, p.bytes);
    return p.hunks;
}

static void say_program(const char *what, struct jufferdeeg_program_numbers l) {
    printf("%s: number %u, place %zu, hunks %u, bytes %zu; the work area is clean: %s\n", what, l.number, l.place,
           l.hunks, l.bytes, yes_or_no(all_are(work, sizeof work, 0)));
    memset(work, 0xAA, sizeof work);
}

static void say_table(uint32_t hunks) {
    for (uint32_t i = 0; i < hunks; i++) {
        printf("hunk %u: kind %X, place %u, size %u, base %08X, memory %u\n", i, table[i].kind, table[i].place,
               table[i].size, table[i].base, table[i].memory);
    }
}

/* Loads, moves, and holds what was moved to a load at the new bases. Then a load and a move that are refused. */
static void load_and_move(size_t file_bytes, size_t hunks) {
    struct jufferdeeg_program_numbers l;
    for (size_t i = 0; i < hunks; i++) {
        here[i] = 0x3000 + 0x4000 * (uint32_t)i;
        there[i] = 0x90000 - 0x4000 * (uint32_t)i;
    }
    memset(work, 0xAA, sizeof work);
    l = jufferdeeg_load(file, file_bytes, here, hunks, memory, sizeof memory, table, MOST, work, sizeof work);
    say_program("load", l);
    say_table(l.hunks);
    l = jufferdeeg_move(file, file_bytes, here, hunks, there, hunks, memory, sizeof memory, table, MOST, work,
                        sizeof work);
    say_program("move", l);
    say_table(l.hunks);
    l = jufferdeeg_load(file, file_bytes, there, hunks, fresh, sizeof fresh, fresh_table, MOST, work, sizeof work);
    say_program("load there", l);
    printf("moved is as loaded there: memory %s, table %s\n", yes_or_no(memcmp(memory, fresh, sizeof memory) == 0),
           yes_or_no(memcmp(table, fresh_table, sizeof table) == 0));

    l = jufferdeeg_load(file, file_bytes, here, hunks, memory, 4, table, MOST, work, sizeof work);
    say_program("load into 4 bytes", l);
    l = jufferdeeg_move(file, file_bytes, there, hunks, here, hunks - 1, memory, sizeof memory, table, MOST, work,
                        sizeof work);
    say_program("move with a base missing", l);
    printf("nothing has changed: memory %s, table %s\n", yes_or_no(memcmp(memory, fresh, sizeof memory) == 0),
           yes_or_no(memcmp(table, fresh_table, sizeof table) == 0));
}

int main(int argc, char **argv) {
    if (argc != 3) {
        fprintf(stderr, "every_call needs an IMAGE and a PATH\n");
        return 2;
    }
    FILE *f = fopen(argv[1], "rb");
    if (f == NULL) {
        fprintf(stderr, "every_call: %s: cannot be opened\n", argv[1]);
        return 2;
    }
    size_t image_bytes = fread(image, 1, sizeof image, f);
    fclose(f);

    memset(claim, 0xAA, sizeof claim);
    audit("of the image", JUFFERDEEG_DOUBLE_DENSITY, image_bytes);
    audit("that takes either size", JUFFERDEEG_ANY_SIZE, image_bytes);
    audit("that names 3520 blocks", JUFFERDEEG_HIGH_DENSITY, image_bytes);
    audit("of half of it", JUFFERDEEG_ANY_SIZE, image_bytes / 2);
    reason(JUFFERDEEG_IMAGE_LENGTH);
    reason(0);
    find(image_bytes, argv[2]);
    find(image_bytes, "");
    find(image_bytes, "no/such");
    read_file(image_bytes, "", 0);
    read_file(image_bytes, argv[2], 4);
    size_t file_bytes = read_file(image_bytes, argv[2], 0);
    check("half of it", file_bytes / 8 * 4);
    uint32_t hunks = check("it", file_bytes);
    if (hunks == 0) {
        return 1; /* it is no program */
    }
    load_and_move(file_bytes, hunks);
    return 0;
}
