/* The host's entry from C: a picture's bytes on standard input, the picture after the pass on standard output, and the answer
 * on standard error. Ends with 0 where the picture was sunk and written out, with 1 where it was refused or not read, with 2 where
 * reading, writing or the arguments failed.
 *
 *   cc -O2 -I include tests/c/example.c target/lib/libvirdzeba.a -o example
 *   ./example [REGISTERS OPERANDS] <before >after     lends so many; without them as many as there may be */
#include <stdio.h>
#include <stdlib.h>
#include "virdzeba.h"

/* One byte more than any picture has, so that a longer one is not taken for its head. */
static uint8_t picture[VIRDZEBA_RESULT + 1], result[VIRDZEBA_RESULT];

static int failed(const char *what)
{
    perror(what);
    return 2;
}

/* A number of base ten, or one that the call does not take. */
static uint32_t number(const char *text)
{
    char *end;
    unsigned long n = strtoul(text, &end, 10);
    return *text >= '0' && *text <= '9' && !*end && n < VIRDZEBA_ABSENT ? (uint32_t)n : VIRDZEBA_ABSENT;
}

int main(int argc, char **argv)
{
    uint32_t registers = VIRDZEBA_REGISTERS, operands = VIRDZEBA_OPERANDS, answer;
    size_t len;
    if (argc == 3) {
        registers = number(argv[1]);
        operands = number(argv[2]);
    } else if (argc != 1) {
        fputs("usage: example [REGISTERS OPERANDS] <before >after\n", stderr);
        return 2;
    }
    len = fread(picture, 1, sizeof picture, stdin);
    if (ferror(stdin))
        return failed("reading");
    answer = virdzeba_sink(picture, len, result, sizeof result, registers, operands);
    if (answer >= VIRDZEBA_UNREAD) {
        fputs("unread 0\n", stderr);
        return 1;
    }
    if (answer >= VIRDZEBA_REFUSED) {
        fprintf(stderr, "refused %u\n", (unsigned)(answer - VIRDZEBA_REFUSED));
        return 1;
    }
    if (answer >= VIRDZEBA_SHORT)
        fprintf(stderr, "short %u\n", (unsigned)(answer - VIRDZEBA_SHORT));
    else
        fprintf(stderr, "done %u\n", (unsigned)answer);
    len = virdzeba_length(result);
    if (fwrite(result, 1, len, stdout) != len || fflush(stdout) != 0)
        return failed("writing");
    return 0;
}
