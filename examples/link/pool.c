/* pool BLOCK..: adds each block to a pool under the next number, then withdraws all, and prints what each call gives. The words are the caller's, zeros at
 * first. */
#include <stdint.h>
#include <stdio.h>

#include "placardpan.h"

static uint64_t pool[PLACARDPAN_POOL_WORDS];
static uint8_t block[32768];

static void told(const char *call, size_t number, uint8_t refusal)
{
    if (refusal == 0)
        printf("%s %zu\n", call, number);
    else
        printf("%s %zu: refusal %u\n", call, number, (unsigned)refusal);
}

int main(int count, char **words)
{
    for (int i = 1; i < count; i++) {
        FILE *file = fopen(words[i], "rb");
        if (file == NULL) {
            perror(words[i]);
            return 1;
        }
        size_t length = fread(block, 1, sizeof block, file);
        fclose(file);
        size_t number = (size_t)i - 1;
        told("added", number, placardpan_pool_add(pool, PLACARDPAN_POOL_WORDS, number, block, length));
    }
    for (size_t number = 0; number + 1 < (size_t)count; number++)
        told("withdrawn", number, placardpan_pool_withdraw(pool, PLACARDPAN_POOL_WORDS, number));
    size_t left = 0;
    for (size_t i = 0; i < PLACARDPAN_POOL_WORDS; i++)
        left += pool[i] != 0;
    printf("words that are not 0: %zu\n", left);
    return 0;
}
