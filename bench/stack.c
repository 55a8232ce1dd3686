// Prints for each block of a stream how many bytes of stack one call of placardpan_simplify takes; compiled with -DSCRIPT, for each script of a stream (its
// length in four bytes before it) those of placardpan_read_script.
// The call gets a stack of its own, filled with one value before: what lies below the deepest changed byte was not used.
#define _GNU_SOURCE
#include <stdio.h>
#include <string.h>
#include <ucontext.h>

#include "placardpan.h"

enum { ROOM = 1 << 20, FILL = 0xa5 };

static uint8_t stack[ROOM], input[1 << 22], output[65536];
static size_t length;
static ucontext_t caller, callee;

#ifdef SCRIPT
enum { HEAD = 4 };
static size_t position;
static void call(void) { placardpan_read_script(input, length, output, sizeof output, &position); }
#else
enum { HEAD = 2 };
static void call(void) { placardpan_simplify(input, length, output, length); }
#endif

int main(void) {
    uint8_t head[HEAD];
    while (fread(head, 1, HEAD, stdin) == HEAD) {
        length = 0;
        for (int i = 0; i < HEAD; i++) length = length << 8 | head[i];
        if (length > sizeof input || fread(input, 1, length, stdin) < length) return 1;
        memset(stack, FILL, ROOM);
        getcontext(&callee);
        callee.uc_stack.ss_sp = stack;
        callee.uc_stack.ss_size = ROOM;
        callee.uc_link = &caller;
        makecontext(&callee, call, 0);
        swapcontext(&caller, &callee);
        size_t unused = 0;
        while (unused < ROOM && stack[unused] == FILL) unused++;
        printf("%zu\n", ROOM - unused);
    }
    return 0;
}
