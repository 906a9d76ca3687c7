// The receiver in a program in C: asks how many bytes the acknowledgment file has, lends just as many, and writes the file to standard
// output. Its arguments are those of ackfile: the pack's path, the transmission's path, the receiving date and the file name. It writes
// "refused " and the number where the receiver refuses, and its status is then 1; it is 2 where something else fails.
#include "bluffcradle.h"
#include <stdio.h>
#include <stdlib.h>
#include <string.h>

// One byte more than an input may have, so that one that is too long is refused.
enum { LONGEST = 65537 };

// A file that can't be read counts as empty.
static size_t read_file(const char *path, uint8_t *bytes) {
    FILE *file = fopen(path, "rb");
    if (file == NULL) {
        return 0;
    }
    size_t length = fread(bytes, 1, LONGEST, file);
    fclose(file);
    return length;
}

static int failed(const char *what) {
    fprintf(stderr, "exact: %s\n", what);
    return 2;
}

int main(int count, char **arguments) {
    static uint8_t pack[LONGEST], sent[LONGEST];
    if (count != 5) {
        return failed("its arguments are PACK TRANSMISSION DATE NAME");
    }
    size_t pack_length = read_file(arguments[1], pack);
    size_t sent_length = read_file(arguments[2], sent);
    const uint8_t *date = (const uint8_t *)arguments[3], *name = (const uint8_t *)arguments[4];
    size_t date_length = strlen(arguments[3]), name_length = strlen(arguments[4]);

    uint64_t need = bluffcradle_need(sent, sent_length, pack, pack_length, date, date_length, name, name_length);
    if (need >> 32 != 0) {
        printf("refused %u\n", (unsigned)(need >> 32));
        return 1;
    }
    size_t length = (size_t)need;
    uint8_t *out = malloc(length);
    if (out == NULL) {
        return failed("no memory");
    }
    // Lent the need, the receiver answers with it.
    if (bluffcradle_acknowledge(sent, sent_length, pack, pack_length, date, date_length, name, name_length, out, length) != need) {
        return failed("another answer than the need");
    }
    if (fwrite(out, 1, length, stdout) != length || fflush(stdout) != 0) {
        return failed("the file can't be written");
    }
    free(out);
    return 0;
}
