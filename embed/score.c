/* Prints the score sheet of a rally log, or its fault: score FILE. */
#include <errno.h>
#include <stdio.h>
#include <string.h>

#include "cibraduc.h"

/* No more bytes than these are read of a file: a log of 30,000 points has 60,005. */
static uint8_t log_bytes[65536];
static uint8_t sheet_bytes[65536];

static int failed(const char *name)
{
    fprintf(stderr, "score: %s: %s\n", name, strerror(errno));
    return 1;
}

int main(int argc, char **argv)
{
    FILE *file;
    size_t length;
    cibraduc_answer answer;

    if (argc != 2) {
        fprintf(stderr, "usage: score FILE\n");
        return 1;
    }
    file = fopen(argv[1], "rb");
    if (file == NULL)
        return failed(argv[1]);
    length = fread(log_bytes, 1, sizeof log_bytes, file);
    if (ferror(file))
        return failed(argv[1]);
    fclose(file);

    answer = cibraduc_sheet(log_bytes, length, sheet_bytes, sizeof sheet_bytes);
    if (answer.fault == CIBRADUC_NO_FAULT)
        fwrite(sheet_bytes, 1, answer.length, stdout);
    else
        printf("fault %d at %zu\n", answer.fault, answer.place);
    if (fflush(stdout) != 0 || ferror(stdout))
        return failed("standard output");
    return 0;
}
