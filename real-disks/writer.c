/* Copies a folder to a new disk, by ADFlib:
       writer IMAGE LABEL BLOCKS KIND keep|remove|mend FOLDER
   BLOCKS is 1760 or 3520: 80 cylinders of two tracks, with 11 or 22 blocks each. KIND is the last byte of the boot
   tag: 0 for the old file system, 1 for the Fast File System, 2 and 3 for the same with accents folded. With remove
   and mend the files called gone.. leave the disk again before those called late.. come, so that blocks do not lie in
   order. */
#include <dirent.h>
#include <stdio.h>
#include <stdlib.h>
#include <string.h>
#include <sys/stat.h>
#include "adflib.h"
#include "adf_bitm.h"
#include "adf_dir.h"
#include "adf_raw.h"

static void fail(const char *what, const char *name) {
    fprintf(stderr, "writer: %s: %s\n", what, name);
    exit(1);
}

static void put_file(struct Volume *volume, const char *from, char *name) {
    static unsigned char bytes[1 << 21];
    FILE *file = fopen(from, "rb");
    if (!file) fail("cannot open", from);
    long n = (long)fread(bytes, 1, sizeof bytes, file);
    fclose(file);
    struct File *to = adfOpenFile(volume, name, "w");
    if (!to) fail("cannot make", name);
    if (adfWriteFile(to, n, bytes) != n) fail("cannot write", name);
    adfCloseFile(to);
}

/* Removes a file. ADFlib frees the blocks of its data and leaves its header in use; with mending, the header is freed
   as well. */
static void remove_file(struct Volume *volume, char *name, int mending) {
    struct bEntryBlock parent, entry;
    SECTNUM before, header;
    if (adfReadEntryBlock(volume, volume->curDirPtr, &parent) != RC_OK) fail("cannot read the directory of", name);
    header = adfNameToEntryBlk(volume, parent.hashTable, name, &entry, &before);
    if (adfRemoveEntry(volume, volume->curDirPtr, name) != RC_OK) fail("cannot remove", name);
    if (mending) {
        adfSetBlockFree(volume, header);
        adfUpdateBitmap(volume);
    }
}

enum pass { FIRST, REMOVE, MEND, LATE };

/* What is in a folder, for the disk's current directory: first all but late.., then gone.. leaves it again, then
   late.. comes. */
static void walk(struct Volume *volume, const char *from, enum pass pass) {
    struct dirent **names;
    int n = scandir(from, &names, NULL, alphasort), i;
    for (i = 0; i < n; i++) {
        char *name = names[i]->d_name, path[4096];
        int late = !strncmp(name, "late", 4), gone = !strncmp(name, "gone", 4);
        struct stat about;
        if (!strcmp(name, ".") || !strcmp(name, "..")) continue;
        snprintf(path, sizeof path, "%s/%s", from, name);
        if (stat(path, &about)) fail("cannot look at", path);
        if (S_ISDIR(about.st_mode)) {
            if (pass == FIRST && adfCreateDir(volume, volume->curDirPtr, name) != RC_OK) fail("cannot make", name);
            if (adfChangeDir(volume, name) != RC_OK) fail("cannot enter", name);
            walk(volume, path, pass);
            adfParentDir(volume);
        } else if (pass == (late ? LATE : FIRST)) {
            put_file(volume, path, name);
        } else if (gone && (pass == REMOVE || pass == MEND)) {
            remove_file(volume, name, pass == MEND);
        }
    }
}

int main(int count, char **words) {
    if (count != 7) return 2;
    char *how = words[5], *folder = words[6];
    adfEnvInitDefault();
    struct Device *device = adfCreateDumpDevice(words[1], 80, 2, atoi(words[3]) / 160);
    if (!device || adfCreateFlop(device, words[2], atoi(words[4])) != RC_OK) fail("cannot format", words[1]);
    struct Volume *volume = adfMount(device, 0, FALSE);
    if (!volume) fail("cannot mount", words[1]);
    walk(volume, folder, FIRST);
    if (!strcmp(how, "remove")) walk(volume, folder, REMOVE);
    if (!strcmp(how, "mend")) walk(volume, folder, MEND);
    walk(volume, folder, LATE);
    adfUnMount(volume);
    adfUnMountDev(device);
    adfEnvCleanUp();
    return 0;
}
