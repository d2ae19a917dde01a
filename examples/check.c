/* Checks a plan, a frame or a schedule: prints the refusal's number and its sentence, "0: taken" if there is none.
 *
 *     check plan|frame|schedule FILE
 *
 * Exit 0 taken, 1 refused, 2 wrong usage or a failed read or write. To build, at the top of the repository after
 * tools/build, or anywhere after tools/install:
 *
 *     cc -std=c99 -Iinclude examples/check.c target/lib/libmuruapy.a -o check
 *     cc -std=c99 check.c $(pkg-config --cflags --libs muruapy) -o check */
#include "muruapy.h"

#include <stdio.h>
#include <string.h>

int main(int argc, char **argv)
{
    /* No more bytes are needed: a 16-bit length tells of 65535 behind its own three, and one more shows that the file is
     * longer. The numbers are then those of the whole file. */
    static uint8_t bytes[65539];
    size_t length;
    uint32_t refusal;
    FILE *file;

    if (argc != 3) {
        fprintf(stderr, "usage: %s plan|frame|schedule FILE\n", argv[0]);
        return 2;
    }
    file = fopen(argv[2], "rb");
    if (!file) {
        perror(argv[2]);
        return 2;
    }
    length = fread(bytes, 1, sizeof bytes, file);
    if (ferror(file)) {
        perror(argv[2]);
        return 2;
    }
    fclose(file);

    if (strcmp(argv[1], "plan") == 0) {
        refusal = muruapy_plan_check(bytes, length);
    } else if (strcmp(argv[1], "frame") == 0) {
        refusal = muruapy_frame_check(bytes, length);
    } else if (strcmp(argv[1], "schedule") == 0) {
        refusal = muruapy_schedule_check(bytes, length);
    } else {
        fprintf(stderr, "%s: a plan, a frame or a schedule, not %s\n", argv[0], argv[1]);
        return 2;
    }

    printf("%lu: %s\n", (unsigned long)refusal, muruapy_refusal_text(refusal));
    if (fflush(stdout) != 0)
        return 2;
    return refusal == MURUAPY_TAKEN ? 0 : 1;
}
