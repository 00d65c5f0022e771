/* Jufferdeeg: audits the image of a floppy of 880 KB or 1,760 KB, of the old file system or of the Fast File System,
 * plain or international, finds and reads its files, checks a program file, loads it into memory and moves a loaded
 * program to other addresses.
 *
 * `./make-archive` proves the library and makes target/native/libjufferdeeg.a for this processor, x86-64 or
 * aarch64; target/x86_64 and target/aarch64 have one for each.
 * It needs memcpy and memset of a C library, and nothing else from outside.
 *
 * What holds for every call:
 * - It may be given any bytes. It ends, stays inside what it is lent, and keeps no pointer to it. There are no
 *   global variables: calls may run at once on several threads, if none writes what another is lent.
 * - The same input gives the same answer and leaves the same bytes.
 * - Memory is lent as a pointer and a length, in bytes, bases or records. A pointer is not NULL, not even if the
 *   length is 0, and is aligned for its type. Memory that a call writes must not overlap anything else that it is
 *   lent.
 * - An answer is a struct, but for jufferdeeg_reason. If the call did what it was asked, number and place are 0. If
 *   it refused, number says why, place says where, and all else in the struct is 0.
 * - Words of an image, of a program file and of the memory that a program is loaded into have their highest byte
 *   first. Bases, records and answers are numbers of the machine.
 * - Stack, not proved but measured (examples/c/stack.c): on x86-64 an audit took up to 0.65 MiB for the deepest volume
 *   of 1,760 blocks that there can be, and up to 1.29 MiB for that of 3,520; on aarch64, when that was measured last,
 *   0.97 and 1.94 MiB. So lend it 1 MiB if 1,760 are named, else 2 MiB. Find and read took less than 40 KiB, the other
 *   calls less than 5 KiB. */
#ifndef JUFFERDEEG_H
#define JUFFERDEEG_H

#include <stddef.h>
#include <stdint.h>

#ifdef __cplusplus
extern "C" {
#endif

#define JUFFERDEEG_VERSION "0.1.0"
#define JUFFERDEEG_VERSION_MAJOR 0
#define JUFFERDEEG_VERSION_MINOR 1
#define JUFFERDEEG_VERSION_PATCH 0

/* The numbers of refusals. In brackets the place: the key of a block, or a key just as it was read; a component of
 * the path, counted from 0; the byte of a word of the program file; an entry of the bases, counted from 0. The root is
 * block 880 of 1,760 blocks, and block 1,760 of 3,520. */
#define JUFFERDEEG_IMAGE_LENGTH 1     /* [0] no disk that is asked for has the image's length */
#define JUFFERDEEG_CLAIM_AREA 2       /* [0] the claim area is short */
#define JUFFERDEEG_BOOT_TAG 3         /* [0] the boot tag is not 44 4F 53 and 00, 01, 02 or 03 */
#define JUFFERDEEG_ROOT_WORDS 4       /* [root] a word of the root that has one value only is wrong */
#define JUFFERDEEG_BAD_KEY 5          /* [key] it is not in 2 to the last block of the disk */
#define JUFFERDEEG_CLAIMED_TWICE 6    /* [key] audit: it is claimed already; find, read: its chain is too long */
#define JUFFERDEEG_BLOCK_SUM 7        /* [block] its words do not add up to 0 */
#define JUFFERDEEG_BLOCK_TYPE 8       /* [block] a type word is wrong */
#define JUFFERDEEG_LINK 9             /* [block] an entry is a link */
#define JUFFERDEEG_WRONG_TIES 10      /* [block] own key, parent, or a directory's last link is wrong */
#define JUFFERDEEG_BAD_NAME 11        /* [block] its name is not allowed */
#define JUFFERDEEG_WRONG_SLOT 12      /* [block] an entry hangs in another slot than its name's */
#define JUFFERDEEG_DOUBLE_NAME 13     /* [block] an earlier entry of the directory has its name */
#define JUFFERDEEG_FILE_LAYOUT 14     /* [block] size, key count, list link, or an empty file's first data key */
#define JUFFERDEEG_DATA_LAYOUT 15     /* [block] the words of a data block; or the one before it names another */
#define JUFFERDEEG_BITMAP_WORDS 16    /* [root] the root's bitmap words are wrong */
#define JUFFERDEEG_WRONG_BIT 17       /* [block] the lowest whose bit of the bitmap is wrong */
#define JUFFERDEEG_PATH_FORM 18       /* [component] it may not be one; [0] the path is longer than 255 bytes */
#define JUFFERDEEG_NOT_FOUND 19       /* [component] there is no such name */
#define JUFFERDEEG_WRONG_KIND 20      /* [component] a file used as a directory, or a directory that is read */
#define JUFFERDEEG_FILE_LENGTH 30     /* [0] the program file is empty, or not made of whole words */
#define JUFFERDEEG_EARLY_END 31       /* [length of the file] a word is needed after its end */
#define JUFFERDEEG_HEADER_WORD 32     /* [byte] the first word, the hunk count, or the first or last hunk number */
#define JUFFERDEEG_LIBRARY 33         /* [4] the file names a library */
#define JUFFERDEEG_HUNK_SIZE 34       /* [byte] a hunk's size is above 65,536 words */
#define JUFFERDEEG_MISPLACED_BLOCK 35 /* [byte] a block of this type may not stand here */
#define JUFFERDEEG_BODY_LENGTH 36     /* [byte] a hunk's count of words is above its size */
#define JUFFERDEEG_SYMBOL_TYPE 37     /* [byte] a symbol's type is not allowed */
#define JUFFERDEEG_BAD_TARGET 38      /* [byte] a hunk number or an offset is not allowed */
#define JUFFERDEEG_TRAILING_WORDS 39  /* [byte] there is more after the last hunk */
#define JUFFERDEEG_BAD_BASE 40        /* [entry] a base that is not allowed; [the first] not one for each hunk */
#define JUFFERDEEG_SHORT_ROOM 41      /* [0] memory, table or work area is short */
#define JUFFERDEEG_NEAR_TARGETS 42    /* [byte] an offset is less than 4 bytes from an earlier one of its hunk */
#define JUFFERDEEG_BOTH_MEMORIES 43   /* [byte] a hunk asks for chip and fast memory at once */

/* Room for any sentence of jufferdeeg_reason. */
#define JUFFERDEEG_REASON_BYTES 128

/* Says in English what a refusal's number means, and answers how many bytes the whole sentence has; 0 for a number
 * that no refusal has.
 *
 * Lent: the output.
 * Left: the sentence, as far as it fits and without an end mark; the rest of the output stays. */
size_t jufferdeeg_reason(uint32_t number, uint8_t *output, size_t output_bytes);

/* ---- volumes
 *
 * Each call names the number of blocks that the image's disk is to have: 1,760 or 3,520, of 512 bytes each, or 0, and
 * then it takes either. An image of another length is refused by 1, and so is every image if another number is named.
 *
 * The last byte of the boot tag is the kind of the disk, and every call takes it from the image: 00 is the old file
 * system, 01 the Fast File System, 02 and 03 the same two with international names. On the Fast File System a data
 * block holds 512 bytes of its file; on the old one it holds 488 after words of its own, which are tested. Which names
 * are equal: on disks of kind 00 and 01 upper and lower case of a to z are the same; on those of 02 and 03 so are bytes
 * C0 to DE and the bytes 20 hex above them, the letters with accents of ISO 8859-1. D7 and F7, which are no letters,
 * are two different bytes on all. A name or a path is just its bytes: text in another encoding, such as UTF-8, is for
 * the caller to convert. */

/* The numbers of blocks that a call may name. */
#define JUFFERDEEG_ANY_SIZE 0u
#define JUFFERDEEG_DOUBLE_DENSITY 1760u
#define JUFFERDEEG_HIGH_DENSITY 3520u

/* The bytes of the largest image, and a claim area that is never short. */
#define JUFFERDEEG_MOST_IMAGE_BYTES 1802240
#define JUFFERDEEG_MOST_CLAIM_BYTES 3520

struct jufferdeeg_audit_numbers {
    uint32_t number;
    size_t place;
    uint32_t directories; /* below the root */
    uint32_t files;
    uint32_t list_blocks;
    uint32_t data_blocks;
    uint32_t used; /* blocks in use, the root and the bitmap block among them */
    uint32_t free; /* used and free are together the blocks of the disk, less 2 */
};

/* Audits an image: with a claim area that is long enough, number is 0 if and only if it is a sound volume of a size
 * that is asked for and of the kind that its boot tag names, without links.
 *
 * Lent: the image; a claim area, of a byte or more for each block, whose contents do not matter.
 * Left: accepted, claim byte k is 1 if block k is in use, and every other byte of the claim area is 0; refused, the
 * whole claim area is 0.
 * Numbers: 0 to 17. What is met first is refused first: the length, the claim area, the boot tag, the root, its
 * bitmap block; then the entries, slot by slot along each chain, and what is in an entry before the next one on its
 * chain; the bits at the end. */
struct jufferdeeg_audit_numbers jufferdeeg_audit(uint32_t disk_blocks, const uint8_t *image, size_t image_bytes,
                                                 uint8_t *claim, size_t claim_bytes);

/* What a path leads to: kind of struct jufferdeeg_find_numbers. */
#define JUFFERDEEG_DIRECTORY 2u
#define JUFFERDEEG_FILE 0xFFFFFFFDu

struct jufferdeeg_find_numbers {
    uint32_t number;
    size_t place;
    uint32_t kind; /* JUFFERDEEG_DIRECTORY or JUFFERDEEG_FILE */
    uint32_t key;
    uint32_t size;     /* of a file, as its header says; 0 for a directory */
    uint32_t compared; /* how many entries were looked at */
};

/* Finds what a path leads to, on any image. A path is components with one '/' between two of them, none before the
 * first or after the last, and has at most 255 bytes. A component has 1 to 30 bytes, none of them '/' or ':'. The
 * empty path has no component: it is the root. Which names are equal is said above.
 *
 * Lent: the image; the path, without an end mark.
 * Left: nothing is written.
 * Numbers: 0, 1, 3 to 12, 18, 19, 20. Only the blocks on the way are tested. */
struct jufferdeeg_find_numbers jufferdeeg_find(uint32_t disk_blocks, const uint8_t *image, size_t image_bytes,
                                               const uint8_t *path, size_t path_bytes);

struct jufferdeeg_read_numbers {
    uint32_t number;
    size_t place;
    size_t count; /* how many bytes were copied */
};

/* Reads a file from an offset on, until the file or the output ends. At the file's end or after it 0 bytes are
 * copied, which is no refusal.
 *
 * Lent: the image; the path, without an end mark; the output.
 * Left: the first count bytes of the output are the file's; the rest of it stays; refused, all of it stays.
 * Numbers: 0, 1, 3 to 12, 14, 15, 18, 19, 20. All of the file's blocks are tested before a byte is copied. */
struct jufferdeeg_read_numbers jufferdeeg_read(uint32_t disk_blocks, const uint8_t *image, size_t image_bytes,
                                               const uint8_t *path, size_t path_bytes, size_t offset, uint8_t *output,
                                               size_t output_bytes);

/* ---- programs
 *
 * A program file has 1 to 64 hunks of at most 65,536 words of 4 bytes. So a table of 64 records is never short, nor
 * are memory and a work area of 16 MiB each. A hunk may ask for chip memory or for fast memory: the record keeps
 * what it asks for, and it changes nothing else. */
#define JUFFERDEEG_MOST_HUNKS 64
#define JUFFERDEEG_MOST_BYTES 16777216

struct jufferdeeg_program_numbers {
    uint32_t number;
    size_t place;
    uint32_t hunks;
    size_t bytes; /* how much of the memory they take */
};

/* Checks a program file, and says how many hunks it has and how many bytes they take: the room that a load needs.
 *
 * Lent: the file.
 * Left: nothing is written.
 * Numbers: 0, 30 to 39, 43: the file's first fault. */
struct jufferdeeg_program_numbers jufferdeeg_check(const uint8_t *file, size_t file_bytes);

/* What a hunk is: kind of struct jufferdeeg_hunk. */
#define JUFFERDEEG_CODE 0x3E9u
#define JUFFERDEEG_DATA 0x3EAu
#define JUFFERDEEG_BSS 0x3EBu

/* The kind of memory that a hunk asks for: memory of struct jufferdeeg_hunk. */
#define JUFFERDEEG_ANY_MEMORY 0u
#define JUFFERDEEG_CHIP_MEMORY 1u
#define JUFFERDEEG_FAST_MEMORY 2u

/* One for each hunk of a loaded program. */
struct jufferdeeg_hunk {
    uint32_t kind;   /* JUFFERDEEG_CODE, JUFFERDEEG_DATA or JUFFERDEEG_BSS */
    uint32_t place;  /* its first byte in the lent memory */
    uint32_t size;   /* in words of 4 bytes */
    uint32_t base;   /* the address that it was loaded for */
    uint32_t memory; /* JUFFERDEEG_ANY_MEMORY, JUFFERDEEG_CHIP_MEMORY or JUFFERDEEG_FAST_MEMORY */
};

/* Loads a program file for the given bases: the hunks' addresses on the machine that will run it. Memory gets the
 * hunks end to end from its first byte on, 0 in the words that the file does not store, and at each relocated word
 * the base of the hunk that the relocation names is added, modulo 2^32.
 *
 * Lent: the file; the bases, exactly one for each hunk, in their order; memory and a work area, each of the bytes that
 * the check says or more; a table, of a record for each hunk or more. What these three hold does not matter. All of
 * the lent work area is cleared, so lend no more of it than the check says.
 * A base is a multiple of 4; base plus bytes of the hunk are at most 2^32; no two hunks share an address. A hunk of
 * 0 words has none, and may stand anywhere.
 * Left: accepted, the loaded bytes and the hunks' records, and the rest of memory and table as it was; refused, no
 * byte of memory and no record changes. The work area is all 0 in either case.
 * Numbers: 0, 30 to 43: faults of the file first, in its order, then 40, 41, 42. */
struct jufferdeeg_program_numbers jufferdeeg_load(const uint8_t *file, size_t file_bytes, const uint32_t *bases,
                                                  size_t bases_count, uint8_t *memory, size_t memory_bytes,
                                                  struct jufferdeeg_hunk *table, size_t table_records, uint8_t *work,
                                                  size_t work_bytes);

/* Moves a program that was loaded from this file at the old bases: memory and table become what a load at the new
 * bases would leave. At each relocated word it adds new minus old base of the hunk that the relocation names, modulo
 * 2^32, and it changes no other byte, whatever memory holds. It does not read the table, but writes it as a load does.
 *
 * Lent: the file; the old and the new bases, each as for a load; memory as the load left it; table and work area as
 * for a load.
 * Left: as for a load.
 * Numbers: as for a load. For 40 the old bases come first; the entries of the new ones count on from the hunk
 * count. */
struct jufferdeeg_program_numbers jufferdeeg_move(const uint8_t *file, size_t file_bytes, const uint32_t *old_bases,
                                                  size_t old_count, const uint32_t *new_bases, size_t new_count,
                                                  uint8_t *memory, size_t memory_bytes, struct jufferdeeg_hunk *table,
                                                  size_t table_records, uint8_t *work, size_t work_bytes);

#ifdef __cplusplus
}
#endif

#endif
