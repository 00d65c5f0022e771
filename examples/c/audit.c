/* Audits an image: is it a sound volume of 1,760 blocks? */
#include <stdio.h>

#include "jufferdeeg.h"

/* One byte more than an image, to see that a file is longer. */
static uint8_t image[JUFFERDEEG_MOST_IMAGE_BYTES + 1], claim[JUFFERDEEG_MOST_CLAIM_BYTES];
static uint8_t why[JUFFERDEEG_REASON_BYTES];

int main(int argc, char **argv) {
    if (argc != 2) {
        fprintf(stderr, "audit needs an IMAGE\n");
        return 2;
    }
    FILE *f = fopen(argv[1], "rb");
    if (f == NULL) {
        fprintf(stderr, "audit: %s: cannot be opened\n", argv[1]);
        return 2;
    }
    size_t image_bytes = fread(image, 1, sizeof image, f);
    fclose(f);
    struct jufferdeeg_audit_numbers a =
        jufferdeeg_audit(JUFFERDEEG_DOUBLE_DENSITY, image, image_bytes, claim, sizeof claim);
    if (a.number == 0) {
        printf("a volume: %u directories, %u files, %u blocks free\n", a.directories, a.files, a.free);
    } else {
        int bytes = (int)jufferdeeg_reason(a.number, why, sizeof why);
        printf("refused: %.*s (number %u, place %zu)\n", bytes, (const char *)why, a.number, a.place);
    }
    return a.number != 0;
}
