// Request #102 in plain C beside the proved library: the same order of products and sums and the same checks, over plain.c's reader.
// plain_evaluate BLOCK reads lines of readings on standard input, holds the two to each other on each, and prints how many blocks a second each evaluates,
// and how many it reads (run on no readings, which is refusal 16 behind the reader).
#define main plain_main
#include "plain.c"
#undef main
#include <stdlib.h>
#include <time.h>

uint32_t placardpan_evaluate(const uint8_t *input, size_t input_length, const int32_t *readings, size_t count);

// Overflow without wider numbers: a magnitude is compared with the limit divided by the factor's; sums with the rest of the range.
static bool product(int64_t *v, int32_t x) {
    uint64_t a = *v < 0 ? -(uint64_t)*v : (uint64_t)*v, b = x < 0 ? -(uint64_t)(int64_t)x : (uint64_t)x;
    uint64_t limit = (uint64_t)INT64_MAX + ((*v < 0) != (x < 0));
    if (b && a > limit / b) return false;
    *v = (int64_t)((uint64_t)*v * (uint64_t)(int64_t)x);
    return true;
}

static bool sum(int64_t *s, int64_t z) {
    if (z < 0 ? *s < INT64_MIN - z : *s > INT64_MAX - z) return false;
    *s += z;
    return true;
}

static bool value(const Form *f, const int32_t *readings, int64_t *total) {
    *total = 0;
    for (int t = 0; t < f->terms; t++) {
        int64_t v = f->coefficient[t];
        for (int i = 0; i < variables; i++) {
            for (int e = f->monomial[t] >> 4 * (variables - 1 - i) & 15; e > 0; e--) {
                if (!product(&v, readings[i])) return false;
            }
        }
        if (!sum(total, v)) return false;
    }
    return true;
}

// Whether all products and sums fit; every child is evaluated.
static bool node(const uint16_t **token, const int32_t *readings, bool all, bool *holds) {
    int first = *(*token)++;
    if (!(first & NODE)) {
        int64_t total;
        if (!value(&form[first >> 3], readings, &total)) return false;
        *holds = first & (total < 0 ? 4 : total == 0 ? 2 : 1);
        return true;
    }
    *holds = all;
    bool fits = true;
    for (int parts = first & (NODE - 1); parts > 0; parts--) {
        bool child = false;
        fits &= node(token, readings, !all, &child);
        *holds = all ? *holds && child : *holds || child;
    }
    return fits;
}

static __attribute__((noinline)) uint32_t evaluate(const uint8_t *input, size_t length, const int32_t *readings, size_t count) {
    static Reader r;
    int root = 0, refusal = read_block(&r, input, length, &root);
    if (refusal) return refusal;
    if (count != (size_t)variables) return 16;
    const uint16_t *token = r.token;
    bool holds = false;
    if (!node(&token, readings, root == 1, &holds)) return 17;
    return holds ? 257 : 256;
}

static double seconds(void) {
    struct timespec now;
    clock_gettime(CLOCK_PROCESS_CPUTIME_ID, &now);
    return now.tv_sec + now.tv_nsec / 1e9;
}

typedef uint32_t (*Evaluator)(const uint8_t *, size_t, const int32_t *, size_t);
enum { LINES = 4096 };
static int32_t lines[LINES][16];
static size_t counts[LINES];

// Blocks a second, the best of five runs.
static double rate(Evaluator evaluator, size_t length, int number, bool alone) {
    double best = 0;
    for (int run = 0; run < 5; run++) {
        long done = 0;
        double start = seconds(), took;
        do {
            for (int k = 0; k < number; k++) {
                if (evaluator(input, length, lines[k], alone ? 0 : counts[k]) == 1) return 0;
            }
            done += number;
            took = seconds() - start;
        } while (took < 0.2);
        if (done / took > best) best = done / took;
    }
    return best;
}

int main(int count, char **words) {
    FILE *file = count == 2 ? fopen(words[1], "rb") : NULL;
    if (!file) return 2;
    size_t length = fread(input, 1, sizeof input, file);
    static char text[1 << 16];
    int number = 0;
    while (number < LINES && fgets(text, sizeof text, stdin)) {
        char *at = text;
        for (size_t n = 0; n < 16; n++) {
            char *end;
            long x = strtol(at, &end, 10);
            if (end == at) break;
            lines[number][n] = x, counts[number] = n + 1, at = end;
        }
        uint32_t one = placardpan_evaluate(input, length, lines[number], counts[number]), other = evaluate(input, length, lines[number], counts[number]);
        if (one != other) {
            printf("line %d: %u and %u\n", number, (unsigned)one, (unsigned)other);
            return 1;
        }
        number++;
    }
    printf("%.0f %.0f ", rate(placardpan_evaluate, length, number, false), rate(evaluate, length, number, false));
    printf("%.0f %.0f\n", rate(placardpan_evaluate, length, number, true), rate(evaluate, length, number, true));
    return 0;
}
