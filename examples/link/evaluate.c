/* Runs the block in the named file on the readings with libevaluate.a and prints what placardpan.h says of it. */
#include "placardpan.h"

#include <stdio.h>
#include <stdlib.h>

/* No accepted block is as long as this, and none has more than 16 variables. */
static uint8_t input[32768];
static int32_t readings[16];

int main(int count, char **arguments)
{
    FILE *file;
    size_t length;
    uint32_t answer;
    int k;

    if (count < 2 || count > 18 || (file = fopen(arguments[1], "rb")) == NULL) {
        fprintf(stderr, "usage: evaluate FILE.block READING..\n");
        return 2;
    }
    length = fread(input, 1, sizeof input, file);
    fclose(file);
    for (k = 2; k < count; k++)
        readings[k - 2] = (int32_t)strtol(arguments[k], NULL, 10);

    answer = placardpan_evaluate(input, length, readings, (size_t)(count - 2));
    if (answer == PLACARDPAN_PERMIT)
        puts("permit");
    else if (answer == PLACARDPAN_DENY)
        puts("deny");
    else
        printf("refusal %u\n", (unsigned)placardpan_refusal(answer));
    return 0;
}
