/*
 * plan PRESENT WANTED BLOCK_SIZE
 *
 * Prints how many wipes and words a put takes that turns the contents of the file PRESENT into those of WANTED, on a card
 * with blocks of BLOCK_SIZE bytes; or, in words, why that is refused.
 *
 * Status: 0 planned, 2 refused, 1 bad arguments or a file that cannot be read.
 */
#include <errno.h>
#include <stdio.h>
#include <stdlib.h>
#include <string.h>

#include "velvetopal.h"

struct run {
    uint8_t *bytes;
    size_t len;
};

/* Reads a whole file. An empty one is NULL with length 0. */
static int read_file(const char *name, struct run *run)
{
    FILE *file = fopen(name, "rb");
    size_t room = 0;

    run->bytes = NULL;
    run->len = 0;
    if (file == NULL) {
        fprintf(stderr, "plan: cannot open %s: %s\n", name, strerror(errno));
        return 0;
    }
    for (;;) {
        uint8_t part[65536];
        size_t got = fread(part, 1, sizeof part, file);

        if (got == 0)
            break;
        if (room - run->len < got) {
            uint8_t *more;

            room = 2 * room + got;
            more = realloc(run->bytes, room);
            if (more == NULL) {
                fprintf(stderr, "plan: no memory for %s\n", name);
                fclose(file);
                return 0;
            }
            run->bytes = more;
        }
        memcpy(run->bytes + run->len, part, got);
        run->len += got;
    }
    if (ferror(file)) {
        fprintf(stderr, "plan: cannot read %s: %s\n", name, strerror(errno));
        fclose(file);
        return 0;
    }
    fclose(file);
    return 1;
}

/* Reads a number of 32 bits: decimal digits and nothing else. */
static int read_number(const char *text, uint32_t *number)
{
    uint64_t value = 0;
    size_t i;

    if (text[0] == '\0')
        return 0;
    for (i = 0; text[i] != '\0'; i++) {
        if (text[i] < '0' || text[i] > '9')
            return 0;
        value = 10 * value + (uint64_t)(text[i] - '0');
        if (value > UINT32_MAX)
            return 0;
    }
    *number = (uint32_t)value;
    return 1;
}

static int show(uint64_t answer)
{
    switch (velvetopal_refusal(answer)) {
    case 0:
        printf("wipes %lu, words %lu\n", (unsigned long)velvetopal_wipes(answer),
               (unsigned long)velvetopal_words(answer));
        return 0;
    case VELVETOPAL_OFF_THE_CARD:
        printf("refused, 1: the runs are not equally long, not whole blocks, or more than 160 blocks\n");
        return 2;
    case VELVETOPAL_NO_SUCH_GEOMETRY:
        printf("refused, 7: a block size is a power of two from 2 to 131072\n");
        return 2;
    default:
        printf("refused, %lu\n", (unsigned long)velvetopal_refusal(answer));
        return 2;
    }
}

int main(int argc, char **argv)
{
    struct run present = {NULL, 0};
    struct run wanted = {NULL, 0};
    uint32_t block_size;
    int status = 1;

    if (argc != 4) {
        fprintf(stderr, "usage: plan PRESENT WANTED BLOCK_SIZE\n");
        return 1;
    }
    if (!read_number(argv[3], &block_size)) {
        fprintf(stderr, "plan: the block size must be a number from 0 to 4294967295: %s\n", argv[3]);
        return 1;
    }
    if (read_file(argv[1], &present) && read_file(argv[2], &wanted))
        status = show(velvetopal_plan(present.bytes, present.len, wanted.bytes, wanted.len, block_size));
    free(present.bytes);
    free(wanted.bytes);
    return status;
}
