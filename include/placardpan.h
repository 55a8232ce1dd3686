/* Placardpan for C: a lift condition block is read, simplified and written again, or refused by a number.
 * The functions are those of liblift.a, but for placardpan_evaluate, which is libevaluate.a's, and placardpan_script, which is libscript.a's; docs/LINKING.md
 * says how to link them and what a caller holds to. The converters are libconvert.a's, those for loading libloading.a's, the pool's two libpool.a's,
 * placardpan_why is libwhy.a's.
 *
 * A lent slice is a pointer and a length in bytes. In every call
 *   - the pointers are not null, also where the length is 0, and the bytes from each on are the caller's, as many as the length says;
 *   - input, output, text, places, the counts and the number of rounds do not overlap each other;
 *   - the output is at least as long as the input, else the answer is refusal 1.
 * Nothing is kept after the call, and there is no state between calls: they may run in several threads at once.
 * A call takes some 130 KB of stack; give its thread 256 KiB or more.
 */
#ifndef PLACARDPAN_H
#define PLACARDPAN_H

#include <stddef.h>
#include <stdint.h>

#ifdef __cplusplus
extern "C" {
#endif

/* The verdicts. An answer without a condition is written as an AND or an OR with no children. */
enum {
    PLACARDPAN_FORMULA = 1,
    PLACARDPAN_ALWAYS = 2,
    PLACARDPAN_UNSATISFIABLE = 3
};

/* The refusals. 1 to 5 are tried in that order, 5 in field order; the rest is met in reading order. */
enum {
    PLACARDPAN_OUTPUT_SHORTER = 1,   /* lent output shorter than lent input */
    PLACARDPAN_UNDER_5_BYTES = 2,    /* input under 5 bytes */
    PLACARDPAN_EDITION = 3,          /* edition neither 1 nor 2 */
    PLACARDPAN_LENGTH_FIELD = 4,     /* length field differs from input length */
    PLACARDPAN_HEAD_COUNT = 5,       /* n, m or node count not allowed */
    PLACARDPAN_BITS_END = 6,         /* bits end inside a field */
    PLACARDPAN_TERM_COUNT = 7,       /* term count 0 or above 16 */
    PLACARDPAN_MAGNITUDE_0 = 8,      /* magnitude 0 */
    PLACARDPAN_EXPONENTS = 9,        /* exponents do not fall strictly */
    PLACARDPAN_KIND_3 = 10,          /* kind 3 */
    PLACARDPAN_POLYNOMIAL = 11,      /* polynomial number m or above */
    PLACARDPAN_SAME_KIND_BELOW = 12, /* AND under AND or OR under OR */
    PLACARDPAN_NESTING = 13,         /* nesting above 6 */
    PLACARDPAN_NODE_COUNT = 14,      /* more or fewer nodes than the head says */
    PLACARDPAN_PADDING = 15,         /* padding not zero, or a whole byte left over */
    PLACARDPAN_FEW_PLACES = 18,      /* fewer than 255 places lent; tried directly after 1, by placardpan_placed alone */
    PLACARDPAN_PAIR_COUNT = 21,      /* edition 2: pair count above n */
    PLACARDPAN_PAIR_NUMBERS = 22,    /* edition 2: variable numbers not rising or not below n */
    PLACARDPAN_PAIR_EXPONENT = 23    /* edition 2: exponent 0 */
};

/* A new block has at least 5 and at most this many bytes, in edition 1 at most 12,684, and never more than the block it came from. It is in the
 * edition of that block. */
#define PLACARDPAN_LONGEST_BLOCK 21516

/* Simplifies a block. The answer is one number: below 256 a refusal's number, else 65,536 times the verdict plus the new block's length.
 * A refusal leaves each byte of the output as it is. Else the output's first bytes are the new block and the rest keep their values. */
uint32_t placardpan_simplify(const uint8_t *input, size_t input_length, uint8_t *output, size_t output_length);

/* The refusal's number, 0 if it is an answer. */
static inline uint32_t placardpan_refusal(uint32_t answer)
{
    return answer < 256 ? answer : 0;
}

/* The verdict, 0 on refusal. */
static inline uint32_t placardpan_verdict(uint32_t answer)
{
    return answer >> 16;
}

/* The new block's length in bytes, 0 on refusal. */
static inline size_t placardpan_length(uint32_t answer)
{
    return answer < 256 ? 0 : answer & 0xffff;
}

/* The engines that deduce (request #110): the fast one, which every other function takes, and the plain one, which tests single values as a person would.
 * Both give the same answer; the plain one takes some 2 to 240 times as long. */
enum {
    PLACARDPAN_FAST = 0,
    PLACARDPAN_PLAIN = 1
};

/* placardpan_simplify by the chosen engine; a number that names none is the fast one. */
uint32_t placardpan_simplify_by(uint8_t engine, const uint8_t *input, size_t input_length, uint8_t *output, size_t output_length);

/* The same, with the counts over the two blocks, each through a number of the caller's; all 0 on refusal.
 * Polynomials in: the different non-constant normal forms that the input's tree uses. Equal, multiple and negated polynomials are one form, a constant
 * is none, a polynomial that no atom names is none; an atom with the empty or the full set uses its polynomial all the same. Polynomials out: the size
 * of the new block's table, all of which its tree uses, each form once and none constant. So both count the same, and out is never above in. */
uint32_t placardpan_counted(const uint8_t *input, size_t input_length, uint8_t *output, size_t output_length,
                            size_t *atoms_in, size_t *atoms_out, size_t *polynomials_in, size_t *polynomials_out);

/* So many bytes are lent for the places of a block's atoms. */
#define PLACARDPAN_PLACES 255

/* placardpan_simplify, with the place of the input atom that each atom of the new block comes from, in reading order: the first bytes of the lent places,
 * as many as the new block has atoms; all others keep their values. A place is the number, from 0, of an atom of the given block in reading order, parent
 * before children, ANDs and ORs not counted. No place is there twice. A refusal leaves the output and the places as they are. */
uint32_t placardpan_placed(const uint8_t *input, size_t input_length, uint8_t *output, size_t output_length, uint8_t *places, size_t places_length);

/* placardpan_simplify, with the largest number of rounds that one run of the rounds took, through a number of the caller's: over all runs of document 01's
 * description, the fresh ones of its step 5 among them, the last round of each counted. 0 if there was no run, and on refusal; never above 161. This call
 * can take much longer than placardpan_simplify (docs/COST.md). */
uint32_t placardpan_rounds(const uint8_t *input, size_t input_length, uint8_t *output, size_t output_length, size_t *rounds);

/* Simplifies a block and returns the length of the filled part of the output, which is its start: the new block's length, 0 exactly on refusal.
 * The output is left as by placardpan_simplify. */
size_t placardpan_simplified(const uint8_t *input, size_t input_length, uint8_t *output, size_t output_length);

/* Simplifies a block and writes the program's lines to the text's first bytes: one of the words FORMULA, ALWAYS, UNSATISFIABLE with atoms in, atoms out,
 * polynomials in, polynomials out, counted as above, and the new block in lower-case hex pairs, one space apart; or REFUSED and the number. Each line
 * ends with a newline, and there is no 0 byte. Returns how many bytes the lines are; if they do not fit, 0, and the text keeps each byte. The output is
 * left as by placardpan_simplify. */
size_t placardpan_report(const uint8_t *input, size_t input_length, uint8_t *output, size_t output_length, uint8_t *text, size_t text_length);

/* A text in which the lines for an input of this length fit. */
#define PLACARDPAN_TEXT(input_length) (3 * (size_t)(input_length) + 32)

/* Runs a block on readings (request #102): one number for each outcome, below 256 the refusal's, else one of these. The reader's refusals 2 to 15 and 21 to 23 come
 * first, then 16 if there are not as many readings as the block has variables, then 17. Nothing is written. A call takes some 46 KB of stack; give its thread
 * 64 KiB or more. */
enum {
    PLACARDPAN_NUMBER_OF_READINGS = 16, /* the number of readings is not n */
    PLACARDPAN_OVERFLOW = 17,           /* a product or running sum leaves 64 signed bits */
    PLACARDPAN_DENY = 256,
    PLACARDPAN_PERMIT = 257
};

uint32_t placardpan_evaluate(const uint8_t *input, size_t input_length, const int32_t *readings, size_t count);

/* Writes a block of either edition in edition 1, or in edition 2 (request #109; the functions of libconvert.a): below 256 the refusal's number, the
 * reader's, then 1 if the output is shorter than the finished block, and the output keeps each byte; else 65,536 plus the length, which
 * placardpan_length takes from it, and the output's first bytes are the finished block and the rest keep their values. */
uint32_t placardpan_to_edition1(const uint8_t *input, size_t input_length, uint8_t *output, size_t output_length);
uint32_t placardpan_to_edition2(const uint8_t *input, size_t input_length, uint8_t *output, size_t output_length);

/* Simplifies a block and writes the answer as a script in SMT-LIB 2 (request #112; docs/SMTLIB.md has the text byte by byte). The block may be of either
 * edition. Below 256 the number of the refusal: the reader's 2 to 15 and 21 to 23, then 24; there is no 1. Else 65,536 plus the script's length, and the text
 * is the script and then what was there. A refusal leaves each byte of the text as it is. The script is measured before it is written. No 0 byte ends it.
 * A call takes some 170 KB of stack; give its thread 256 KiB or more. */
#define PLACARDPAN_TEXT_SHORT 24 /* the lent text is shorter than the finished script */

uint32_t placardpan_script(const uint8_t *input, size_t input_length, uint8_t *text, size_t text_length);

/* The script's length in bytes, 0 on refusal. */
static inline size_t placardpan_script_length(uint32_t answer)
{
    return answer < 256 ? 0 : answer - 65536;
}

/* No script is longer. */
#define PLACARDPAN_LONGEST_SCRIPT 2024782

/* Reads a script back (the function of libscript_back.a) and writes the block that it is the script of, in edition 1. Below 256 the number of the refusal: 25,
 * then 1 if the output is shorter than the finished block, and the output keeps each byte; else 65,536 plus the length, which placardpan_length takes from it,
 * and the output's first bytes are the finished block and the rest keep their values. The position, through a number of the caller's, is with 25 that of the
 * first byte, from 0, at which no script goes on: an unfinished text stops at its length, a text with more behind it where the extra begins; else it is 0.
 * A call takes some 190 KB of stack; give its thread 256 KiB or more. */
#define PLACARDPAN_NO_SCRIPT 25 /* no script goes on at the position */

uint32_t placardpan_read_script(const uint8_t *text, size_t text_length, uint8_t *output, size_t output_length, size_t *position);

/* ---- Why is the clause gone? (request #106): the function of libwhy.a. */

/* What became of an atom, for a block whose root is an atom, or an AND all of whose children are atoms. Places are those of placardpan_placed. A set has bit
 * 0 for above 0, bit 1 for 0, bit 2 for below 0, and is that of the clause's normal form: mirrored where the polynomial's first coefficient is below 0.
 * A field that its kind does not use is 0. The records can be checked by themselves: each named atom carries the set that its own record tells. */
enum {
    PLACARDPAN_KEPT = 1,     /* it stands in the answer with its own set */
    PLACARDPAN_NARROWED = 2, /* it stands in the answer with this smaller set */
    PLACARDPAN_MERGED = 3,   /* it has the polynomial of the atom at `place`, and its set went into that one's */
    PLACARDPAN_REMOVED = 4,  /* the atoms at the places named say it, and no fewer of them do; none named: its terms alone say so; set 7: all signs allowed */
    PLACARDPAN_FALSE = 5     /* the whole is false by the atoms at the places named, the same in every record, and no fewer of them do */
};

struct placardpan_reason {
    uint8_t kind;
    uint8_t set;
    uint8_t place;
    uint64_t places[4]; /* place p is bit p % 64 of word p / 64 */
};

/* So many records are always enough. */
#define PLACARDPAN_RECORDS 255

#define PLACARDPAN_NO_AND_OF_ATOMS 19 /* the root is neither an atom nor an AND of atoms */
#define PLACARDPAN_FEW_RECORDS 20     /* fewer records are lent than the block has atoms */

/* Fills the first of the lent records, one for each atom in reading order; records behind these keep their contents. The records are aligned as uint64_t.
 * Below 256 the number of the refusal, and every record is as it was: the reader's 2 to 15 and 21 to 23, then 19, then 20; there is no 1. Else 256 plus
 * the number of records told. A call takes some 82 KB of stack; give its thread 128 KiB or more. */
uint32_t placardpan_why(const uint8_t *input, size_t input_length, struct placardpan_reason *records, size_t records_length);

/* How many records are told, 0 on refusal. */
static inline size_t placardpan_told(uint32_t answer)
{
    return answer < 256 ? 0 : answer - 256;
}

/* Whether a record names a place below 256. */
static inline int placardpan_names(const struct placardpan_reason *reason, unsigned place)
{
    return (int)(reason->places[place / 64] >> place % 64 & 1);
}

/* ---- A pool of polynomials for a release (request #113): the functions of libpool.a. */

/* A pool is so many words of the caller's, aligned as uint64_t; what stands in them is the library's own business. Zeros are the empty pool. Any other words
 * are a pool to these functions too: whatever they hold, a call is safe, touches nothing but the words lent, and gives the same numbers and the same words
 * for the same words. Words that began as zeros and were changed by these functions alone hold exactly the forms of the blocks present. */
#define PLACARDPAN_POOL_WORDS 4354

enum {
    PLACARDPAN_BLOCK_NUMBER = 26, /* the block's number is above 31, present on adding, or absent on withdrawal */
    PLACARDPAN_OTHER_N = 27,      /* some block is present, and its n differs */
    PLACARDPAN_POOL_FULL = 28     /* the forms in use together with the listed ones are more than 128 */
};

/* Adds a block under a number, 0 to 31: lists the different normal forms of its non-constant table polynomials, each stored once. 0, or the number of the
 * refusal, and the words are as they were: 1 if fewer than PLACARDPAN_POOL_WORDS words are lent, the reader's 2 to 15 and 21 to 23, then 26, 27, 28. */
uint8_t placardpan_pool_add(uint64_t *pool, size_t words, size_t number, const uint8_t *block, size_t length);

/* Withdraws the block of a number: a form that no other block lists is gone, and its room is used again. 0, or the number of the refusal, 1 or 26, and the
 * words are as they were. A call of either takes some 37 KB of stack; give its thread 64 KiB or more. */
uint8_t placardpan_pool_withdraw(uint64_t *pool, size_t words, size_t number);

/* ---- Loading that a power cut cannot hurt: the functions of libloading.a; docs/LOADING.md says what is proved of them. */

/* The check at the start: below 256 the number of the refusal, else 65,536 plus the length of the block that starts, which is the area's first bytes.
 * placardpan_refusal and placardpan_length take it apart. Start nothing that is refused. */
uint32_t placardpan_start(const uint8_t *area, size_t area_length);

/* The order of the writes of a load of a block of size bytes: they are 0 to size. Write 0 puts 255 into byte 3 and is left out if that stands there
 * already; the last puts the block's own byte 3. A driver makes the writes from placardpan_first_write on, one after the other, and waits for its
 * memory after each: write k puts placardpan_value(block, size, k) into byte placardpan_place(size, k). */
size_t placardpan_first_write(const uint8_t *area, size_t area_length);
size_t placardpan_place(size_t size, size_t k);
uint8_t placardpan_value(const uint8_t *block, size_t size, size_t k);

/* Write k: the area is as it was but for that one byte; past the area's end nothing is written. */
void placardpan_step(uint8_t *area, size_t area_length, const uint8_t *block, size_t size, size_t k);

/* Loads a block into an area that is plain memory: below 256 the number of the block's own refusal, or 1 if the area is shorter than the block, and
 * the area is unchanged; else 65,536 plus the length, every write was made in order, and the area is the block and then its old bytes. */
uint32_t placardpan_load(const uint8_t *block, size_t size, uint8_t *area, size_t area_length);

#ifdef __cplusplus
}
#endif

#endif
