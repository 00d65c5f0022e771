/* Measures how much stack each call takes: calls it on a thread whose stack was filled with A5, and looks how far down
 * that was overwritten. It makes its own input: a volume of each size whose directories lie one in the other, with a
 * file as deep as a path can lead, and a program of 64 hunks with a relocation each.
 *
 * It prints the distance from the caller's frame to the lowest byte that changed; less than 500 cannot be told apart.
 * It fails if a call takes more than jufferdeeg.h says. `examples/c/run stack` builds and runs it. */
#define _GNU_SOURCE
#include <pthread.h>
#include <stdio.h>
#include <string.h>

#include "jufferdeeg.h"

#define HUNKS JUFFERDEEG_MOST_HUNKS
#define STACK_BYTES (4 << 20)
#define PAINT 0xA5

/* What jufferdeeg.h says; for an audit, what it says to lend, less what the two directories would take that these
 * volumes lack: up to 576 bytes each. */
#define AUDIT_MOST ((1 << 20) - 2 * 576)
#define HIGH_AUDIT_MOST ((2 << 20) - 2 * 576)
#define FIND_MOST (40 << 10)
#define OTHERS_MOST (5 << 10)

static uint8_t image[JUFFERDEEG_MOST_IMAGE_BYTES], claim[JUFFERDEEG_MOST_CLAIM_BYTES], output[1024], path[255];
static uint32_t blocks; /* of the image */
static uint8_t file[4096], memory[4096], work[4096];
static size_t file_bytes;
static uint32_t old_bases[HUNKS], new_bases[HUNKS];
static struct jufferdeeg_hunk table[HUNKS];
static _Alignas(4096) uint8_t stack[STACK_BYTES];

/* ---- the input */

static void put(uint8_t *at, uint32_t word) {
    for (int i = 0; i < 4; i++) {
        at[i] = (uint8_t)(word >> (24 - 8 * i));
    }
}

static uint32_t get(const uint8_t *at) {
    return (uint32_t)at[0] << 24 | (uint32_t)at[1] << 16 | (uint32_t)at[2] << 8 | at[3];
}

static void set(uint32_t key, uint32_t word, uint32_t value) {
    put(image + 512 * key + 4 * word, value);
}

/* The words of the block add up to 0 with this one. */
static void seal(uint32_t key, uint32_t word) {
    uint32_t sum = 0;
    set(key, word, 0);
    for (uint32_t i = 0; i < 128; i++) {
        sum += get(image + 512 * key + 4 * i);
    }
    set(key, word, 0 - sum);
}

/* Directory `a` in `a` in `a`, and at the depth of the longest path a file `f` beside it, of one byte. */
static void make_volume(uint32_t disk_blocks) {
    const uint32_t root = disk_blocks / 2, map = root + 1, header = disk_blocks - 2, data = disk_blocks - 1;
    uint32_t parent = root, depth = 0, key, i;
    blocks = disk_blocks;
    memset(image, 0, sizeof image);
    memcpy(image, "DOS", 3);
    set(root, 0, 2), set(root, 3, 72), set(root, 78, 0xFFFFFFFF), set(root, 79, map), set(root, 127, 1);
    memcpy(image + 512 * root + 432, "\4deep", 5);
    for (key = 2; key < header; key++) {
        if (key == root || key == map) {
            continue;
        }
        set(parent, 6 + 6, key); /* the slot of `a` */
        set(key, 0, 2), set(key, 1, key), set(key, 125, parent), set(key, 127, JUFFERDEEG_DIRECTORY);
        memcpy(image + 512 * key + 432, "\1a", 2);
        if (++depth == 127) {
            set(key, 6 + 11, header); /* the slot of `f` */
            set(header, 0, 2), set(header, 1, header), set(header, 2, 1), set(header, 4, data), set(header, 77, data);
            set(header, 81, 1), set(header, 125, key), set(header, 127, JUFFERDEEG_FILE);
            memcpy(image + 512 * header + 432, "\1f", 2);
            set(data, 0, 8), set(data, 1, header), set(data, 2, 1), set(data, 3, 1);
            seal(header, 5), seal(data, 5);
        }
        parent = key;
    }
    for (key = 2; key < header; key++) {
        if (key != map) {
            seal(key, 5);
        }
    }
    seal(map, 0); /* every bit is 0: no block is free */
    for (i = 0; i < sizeof path; i++) {
        path[i] = i % 2 ? '/' : 'a';
    }
    path[254] = 'f';
}

static void add(uint32_t word) {
    put(file + file_bytes, word);
    file_bytes += 4;
}

/* 64 hunks of two stored words, each with a target at 0 that gets the base of the next. They ask for any, for chip and
 * for fast memory in turn, in the two highest bits of a size. */
static void make_program(void) {
    uint32_t i;
    add(0x3F3), add(0), add(HUNKS), add(0), add(HUNKS - 1);
    for (i = 0; i < HUNKS; i++) {
        add((i % 3) << 30 | 2);
        old_bases[i] = 0x1000 + 8 * i;
        new_bases[i] = 0x8000 + 8 * i;
    }
    for (i = 0; i < HUNKS; i++) {
        add(0x3E9), add(2), add(i), add(i);
        add(0x3EC), add(1), add((i + 1) % HUNKS), add(0), add(0);
        add(0x3F2);
    }
}

/* ---- the calls, each with the number that it gives */

static uint32_t audit(void) {
    return jufferdeeg_audit(blocks, image, 512 * blocks, claim, sizeof claim).number;
}
static uint32_t find(void) {
    return jufferdeeg_find(blocks, image, 512 * blocks, path, sizeof path).number;
}
static uint32_t read_file(void) {
    return jufferdeeg_read(blocks, image, 512 * blocks, path, sizeof path, 0, output, sizeof output).number;
}
static uint32_t reason(void) {
    return jufferdeeg_reason(JUFFERDEEG_NEAR_TARGETS, output, sizeof output) == 0;
}
static uint32_t check(void) {
    return jufferdeeg_check(file, file_bytes).number;
}
static uint32_t load(void) {
    return jufferdeeg_load(file, file_bytes, old_bases, HUNKS, memory, sizeof memory, table, HUNKS, work, sizeof work)
        .number;
}
static uint32_t move(void) {
    return jufferdeeg_move(file, file_bytes, old_bases, HUNKS, new_bases, HUNKS, memory, sizeof memory, table, HUNKS,
                           work, sizeof work)
        .number;
}

/* ---- the measurement */

static uint32_t (*call)(void);
static uint32_t number;
static size_t taken;

/* Paints the stack from its end up to this function's own frame. What the thread's start has left there is gone. */
static __attribute__((noinline)) void paint(void) {
    volatile uint8_t *at = stack, *frame = __builtin_frame_address(0);
    while (at < frame - 256) {
        *at++ = PAINT;
    }
}

static void *on_thread(void *unused) {
    const uint8_t *top = __builtin_frame_address(0), *low = stack;
    paint();
    number = call();
    while (*low == PAINT) {
        low++;
    }
    taken = (size_t)(top - low);
    return unused;
}

static int measure(const char *name, uint32_t (*made)(void), size_t most) {
    pthread_attr_t attributes;
    pthread_t thread;
    call = made;
    call(); /* what is bound at the first use is bound now */
    if (pthread_attr_init(&attributes) || pthread_attr_setstack(&attributes, stack, sizeof stack) ||
        pthread_create(&thread, &attributes, on_thread, NULL) || pthread_join(thread, NULL)) {
        fprintf(stderr, "stack: there is no thread\n");
        return 1;
    }
    printf("%s: number %u, %zu bytes of stack, %s\n", name, number, taken, taken > most ? "TOO MUCH" : "as said");
    return number != 0 || taken > most;
}

int main(void) {
    make_program();
    make_volume(JUFFERDEEG_DOUBLE_DENSITY);
    int bad = measure("audit of 1760 blocks", audit, AUDIT_MOST);
    make_volume(JUFFERDEEG_HIGH_DENSITY);
    bad += measure("audit of 3520 blocks", audit, HIGH_AUDIT_MOST);
    bad += measure("find", find, FIND_MOST) + measure("read", read_file, FIND_MOST);
    bad += measure("reason", reason, OTHERS_MOST) + measure("check", check, OTHERS_MOST);
    return bad + measure("load", load, OTHERS_MOST) + measure("move", move, OTHERS_MOST);
}
