/* why BLOCK: prints what became of each atom of a block whose root is an AND of atoms, as the numbers of its record. The records are the caller's. */
#include <stdint.h>
#include <stdio.h>

#include "placardpan.h"

static uint8_t block[32768];
static struct placardpan_reason records[PLACARDPAN_RECORDS];

int main(int count, char **words)
{
    FILE *file = count == 2 ? fopen(words[1], "rb") : NULL;
    if (file == NULL) {
        fprintf(stderr, "usage: why BLOCK\n");
        return 1;
    }
    size_t length = fread(block, 1, sizeof block, file);
    fclose(file);
    uint32_t answer = placardpan_why(block, length, records, PLACARDPAN_RECORDS);
    if (placardpan_refusal(answer) != 0) {
        printf("refusal %u\n", (unsigned)answer);
        return 0;
    }
    for (size_t i = 0; i < placardpan_told(answer); i++) {
        printf("%zu: kind %u set %u place %u named", i, records[i].kind, records[i].set, records[i].place);
        for (unsigned p = 0; p < 256; p++)
            if (placardpan_names(&records[i], p))
                printf(" %u", p);
        printf("\n");
    }
    return 0;
}
