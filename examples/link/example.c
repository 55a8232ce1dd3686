/* Simplifies the block in the named file with liblift.a and prints what each function of placardpan.h says of it. */
#include "placardpan.h"

#include <stdio.h>

/* No accepted block is as long as this. */
static uint8_t input[32768];
static uint8_t output[sizeof input];
static uint8_t text[PLACARDPAN_TEXT(sizeof input)];
static uint8_t places[PLACARDPAN_PLACES];

static const char *word(uint32_t verdict)
{
    switch (verdict) {
    case PLACARDPAN_FORMULA:
        return "formula";
    case PLACARDPAN_ALWAYS:
        return "always";
    case PLACARDPAN_UNSATISFIABLE:
        return "unsatisfiable";
    default:
        return "none";
    }
}

int main(int count, char **arguments)
{
    FILE *file;
    size_t length, filled, lines, i;
    size_t atoms_in, atoms_out, polynomials_in, polynomials_out, rounds;
    uint32_t answer, again, placed, timed, plain;

    if (count != 2 || (file = fopen(arguments[1], "rb")) == NULL) {
        fprintf(stderr, "usage: example FILE.block\n");
        return 2;
    }
    length = fread(input, 1, sizeof input, file);
    fclose(file);

    answer = placardpan_simplify(input, length, output, sizeof output);
    printf("refusal %u, verdict %s, %zu bytes\n", (unsigned)placardpan_refusal(answer), word(placardpan_verdict(answer)), placardpan_length(answer));

    plain = placardpan_simplify_by(PLACARDPAN_PLAIN, input, length, output, sizeof output);
    printf("by the plain engine %s\n", plain == answer ? "the same" : "another answer");

    again = placardpan_counted(input, length, output, sizeof output, &atoms_in, &atoms_out, &polynomials_in, &polynomials_out);
    printf("atoms %zu to %zu, polynomials %zu to %zu\n", atoms_in, atoms_out, polynomials_in, polynomials_out);

    placed = placardpan_placed(input, length, output, sizeof output, places, sizeof places);
    printf("places");
    for (i = 0; i < atoms_out; i++)
        printf(" %u", (unsigned)places[i]);
    printf("\n");

    timed = placardpan_rounds(input, length, output, sizeof output, &rounds);
    printf("rounds %zu\n", rounds);

    filled = placardpan_simplified(input, length, output, sizeof output);
    printf("filled %zu\n", filled);

    lines = placardpan_report(input, length, output, sizeof output, text, sizeof text);
    fwrite(text, 1, lines, stdout);

    return again == answer && placed == answer && timed == answer && plain == answer && filled == placardpan_length(answer) ? 0 : 1;
}
