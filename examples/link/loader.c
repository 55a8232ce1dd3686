/* A loader with a driver, over libloading.a: loads the second block over the first one, one write at a time, and asks after each what would start. */
#include "placardpan.h"

#include <stdio.h>
#include <string.h>

/* What stands for the controller's memory, and the block that comes in. */
static uint8_t area[1024];
static uint8_t block[sizeof area];

static size_t read_block(const char *name)
{
    FILE *file = fopen(name, "rb");
    size_t size;

    if (file == NULL)
        return 0;
    size = fread(block, 1, sizeof block, file);
    fclose(file);
    return size;
}

/* A real driver waits here until its memory has the byte, and only then goes on. */
static void wait_for_memory(void)
{
}

int main(int count, char **arguments)
{
    size_t size, old_size, k, place, writes = 0, old = 0, refused = 0, loaded = 0, wrong = 0;
    uint32_t answer;

    if (count != 3) {
        fprintf(stderr, "usage: loader OLD.block NEW.block\n");
        return 2;
    }
    memset(area, 255, sizeof area);
    size = read_block(arguments[1]);
    answer = placardpan_load(block, size, area, sizeof area);
    old_size = placardpan_length(answer);
    printf("loaded %zu, refusal %u\n", old_size, (unsigned)placardpan_refusal(answer));

    /* The block is read before the first write: all of it is one block, and it has room. */
    size = read_block(arguments[2]);
    answer = placardpan_start(block, size);
    if (placardpan_length(answer) != size || size > sizeof area) {
        printf("not loaded, refusal %u\n", (unsigned)placardpan_refusal(answer));
        return 0;
    }
    for (k = placardpan_first_write(area, sizeof area); k <= size; k++) {
        place = placardpan_place(size, k);
        placardpan_step(area, sizeof area, block, size, k);
        wait_for_memory();
        wrong += area[place] != placardpan_value(block, size, k);
        writes++;
        /* This is what a loader would find at power-up if the power were cut now. */
        answer = placardpan_start(area, sizeof area);
        if (placardpan_refusal(answer) != 0)
            refused++;
        else if (placardpan_length(answer) == size && memcmp(area, block, size) == 0)
            loaded++;
        else if (placardpan_length(answer) == old_size)
            old++;
        else
            wrong++;
    }
    printf("writes %zu: old %zu, refused %zu, new %zu\n", writes, old, refused, loaded);
    answer = placardpan_start(area, sizeof area);
    printf("starts %zu, refusal %u\n", placardpan_length(answer), (unsigned)placardpan_refusal(answer));
    return wrong == 0 ? 0 : 1;
}
