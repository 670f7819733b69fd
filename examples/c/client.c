/* Reads the forms of a plan from standard input and prints the engine's answer: a start for a booking program. */
#include "gezwaphimo.h"

#include <stdio.h>

static uint8_t forms[65537];
static uint8_t answer[205200];

int main(void)
{
    size_t length = fread(forms, 1, sizeof forms, stdin);
    if (ferror(stdin)) {
        fputs("client: the forms cannot be read\n", stderr);
        return 1;
    }
    int64_t count = gezwaphimo_answer(forms, length, answer, sizeof answer);
    if (count == GEZWAPHIMO_BUFFER_TOO_SHORT) {
        fputs("client: the answer is longer than the buffer\n", stderr);
        return 1;
    }
    if (fwrite(answer, 1, (size_t)count, stdout) != (size_t)count || fflush(stdout) != 0) {
        fputs("client: the answer cannot be written\n", stderr);
        return 1;
    }
    return 0;
}
