// A plain C version of document 01's rules, and of both editions of a block, written for speed: what the proved program's time is measured against.
// No heap; exponents packed into one number; signs worked out once for a board; deductions left out or left early where they cannot cut.
#include <stdbool.h>
#include <stdint.h>
#include <stdio.h>
#include <string.h>

// Compiled with -DCOUNT it prints for each block the deductions that document 01 makes of it, the rounds that it begins, and the tries of two atoms at
// once whose factors allow a test.
#ifdef COUNT
static long deductions, rounds, tries;
#define COUNTED(what) what++
#define COUNTING 1
#define EMPTY(set) false
#define STAYS 0 // every run is made
#define FRESH 0
#else
#define COUNTED(what)
#define COUNTING 0
#define EMPTY(set) (!(set))
#endif

// Two atoms at once (request #111). What may be left out of the search, each to be switched off by -DNAME=0; -DPAIRS=0 leaves the rule out.
#ifndef PAIRS
#define PAIRS 1
#endif
#ifndef USEFUL // no test whose finding cannot cut p's set
#define USEFUL 1
#endif
#ifndef MASKS // no pair of which some monomial, by its signs in p, u·q1 and v·q2 alone, lets no factors pass
#define MASKS 1
#endif
#ifndef BITS // the factor pairs as the bits of one word, narrowed monomial by monomial
#define BITS 1
#endif
#ifndef SAYS // no pairs for what a settled list says of a variable or a listed atom
#define SAYS 1
#endif
#ifndef FRESH // in step 5 pairs for the variables above the settled board alone
#define FRESH 1
#endif
#ifndef STAYS // in step 5 no run for an atom that the settled state does not imply
#define STAYS PAIRS
#endif
#ifndef AGAIN // no pair that failed on the same board with the same sets: on the board at hand, and (2) on the one that settled last
#define AGAIN 2
#endif
#ifndef LAST // the monomial that let no factors pass is asked first of the next pair
#define LAST 1
#endif

// ---- signs: < is 4, = is 2, > is 1

static const uint8_t SUM[8][8] = {
    {0, 0, 0, 0, 0, 0, 0, 0}, {0, 1, 1, 1, 7, 7, 7, 7}, {0, 1, 2, 3, 4, 5, 6, 7}, {0, 1, 3, 3, 7, 7, 7, 7},
    {0, 7, 4, 7, 4, 7, 4, 7}, {0, 7, 5, 7, 7, 7, 7, 7}, {0, 7, 6, 7, 4, 7, 6, 7}, {0, 7, 7, 7, 7, 7, 7, 7},
};
static const uint8_t MIRROR[8] = {0, 4, 2, 6, 1, 5, 3, 7};

// ---- the table of forms, and the signs of their monomials on the board at hand

enum { TERMS = 16, FORMS = 64, VARIABLES = 16, NODES = 256 };

typedef struct {
    int terms;
    int variable;           // the variable that the form is, or -1
    bool constant;
    uint16_t linear;        // the variables whose power 1 is a monomial of the form
    int32_t coefficient[TERMS];
    uint64_t monomial[TERMS];
    uint64_t occurs[TERMS]; // a bit for each exponent above 0
} Form;

static int edition, variables;
static uint64_t one_variable[VARIABLES]; // the monomial of each variable
static Form form[FORMS];
static uint8_t sign[FORMS][TERMS];

#define LOW_BITS 0x1111111111111111u

// The board as bits at the variables' exponents: those whose set has zero, is zero alone, has both other signs, has negative and not positive.
typedef struct {
    uint64_t zero, only_zero, both, negative;
} Masks;

static Masks masks_of(const uint8_t *board) {
    Masks m = {0, 0, 0, 0};
    for (int i = 0; i < variables; i++) {
        uint64_t bit = one_variable[i];
        int set = board[i];
        if (set & 2) m.zero |= bit;
        if (set == 2) m.only_zero |= bit;
        if ((set & 5) == 5) m.both |= bit;
        if ((set & 5) == 4) m.negative |= bit;
    }
    return m;
}

static inline int monomial_sign(const Masks *m, uint64_t monomial, uint64_t occurs) {
    if (occurs & m->only_zero) return 2;
    uint64_t odd = monomial & LOW_BITS;
    int s = odd & m->both ? 5 : __builtin_popcountll(odd & m->negative) & 1 ? 4 : 1;
    return occurs & m->zero ? s | 2 : s;
}

// Works out the signs of a form, or only those where a variable of `changed` occurs.
static void sign_form(const Masks *m, int f, uint64_t changed) {
    for (int t = 0; t < form[f].terms; t++)
        if (form[f].occurs[t] & changed || !changed) sign[f][t] = monomial_sign(m, form[f].monomial[t], form[f].occurs[t]);
}

static int sign_by_terms(int f) {
    int sum = 2;
    for (int t = 0; t < form[f].terms && sum != 7; t++) {
        int s = sign[f][t];
        sum = SUM[sum][form[f].coefficient[t] < 0 ? MIRROR[s] : s];
    }
    return sum;
}

// ---- deducing p from q

// The t from low to high, as fractions; a denominator 0 is no end.
typedef struct {
    int64_t low, low_d, high, high_d;
} Interval;

// t is at least n/d. Whether some t is left.
static inline bool at_least(Interval *i, int64_t n, int64_t d) {
    if (n * i->low_d > i->low * d) {
        i->low = n;
        i->low_d = d;
        return n * i->high_d <= i->high * d;
    }
    return true;
}

static inline bool at_most(Interval *i, int64_t n, int64_t d) {
    if (n * i->high_d < i->high * d) {
        i->high = n;
        i->high_d = d;
        return i->low * d <= n * i->low_d;
    }
    return true;
}

// The monomials with sign > or <: the first, a + tb, and whether another is 0 at another t, or never.
typedef struct {
    int64_t a, b;
    bool apart;
} Strict;

// Request #104: some t of the interval, which has one, at which one of them is not 0. If it has more than one t, there is.
static inline bool strict_in(const Strict *s, const Interval *i) {
    bool several = (i->low_d == 0 && i->high_d == 0) || i->low * i->high_d < i->high * i->low_d;
    return s->apart || ((s->a || s->b) && (several || s->a * i->low_d + i->low * s->b != 0));
}

// What the deduction of p from q leaves of p's set. For < and ≤ only the t from 0 up matter in L and those up to 0 in U, for > and ≥ the other way.
static inline int deduced(int set, int terms, const int32_t *pc, const uint64_t *pm, const uint8_t *ps, int q, int q_set) {
    const Interval every = {-1, 0, 1, 0}, up = {0, 1, 1, 0}, down = {-1, 0, 0, 1};
    const int32_t *qc = form[q].coefficient;
    const uint64_t *qm = form[q].monomial;
    const uint8_t *qs = sign[q];
    int q_terms = form[q].terms;
    // L finds > or ≥, U finds < or ≤: one that cannot cut is left out.
    bool in_l = set & 6, in_u = set & 3;
    Interval l = q_set == 2 ? every : q_set & 4 ? up : down;
    Interval u = q_set == 2 ? every : q_set & 4 ? down : up;
    Strict strict = {0, 0, false};
    for (int i = 0, j = 0; i < terms || j < q_terms;) {
        int64_t a = 0, b = 0;
        int s;
        if (j == q_terms || (i < terms && pm[i] > qm[j])) {
            s = ps[i];
            a = pc[i++];
        } else if (i == terms || pm[i] < qm[j]) {
            s = qs[j];
            b = qc[j++];
        } else {
            s = qs[j];
            a = pc[i++];
            b = qc[j++];
        }
        if ((s == 1 || s == 4) && !strict.apart) {
            strict.apart = strict.a * b != a * strict.b;
            if (!strict.a && !strict.b) {
                strict.a = a;
                strict.b = b;
            }
        }
        switch (s) {
        case 2:
            continue;
        case 4:
        case 6:
            a = -a;
            b = -b;
            // fall through
        case 1:
        case 3:
            if (b > 0) {
                in_l = in_l && at_least(&l, -a, b);
                in_u = in_u && at_most(&u, -a, b);
            } else if (b < 0) {
                in_l = in_l && at_most(&l, a, -b);
                in_u = in_u && at_least(&u, a, -b);
            } else if (a > 0) {
                in_u = false;
            } else {
                in_l = false;
            }
            break;
        default:
            if (b == 0) return set;
            if (b < 0) {
                a = -a;
                b = -b;
            }
            in_l = in_l && at_least(&l, -a, b) && at_most(&l, -a, b);
            in_u = in_u && at_least(&u, -a, b) && at_most(&u, -a, b);
        }
        if (!in_l && !in_u) return set;
    }
    // strict at a t other than 0 where q is < 0 or > 0, or by a monomial
    if (in_l) set &= (q_set == 4 && l.high > 0) || (q_set == 1 && l.low < 0) || strict_in(&strict, &l) ? 1 : 3;
    if (in_u) set &= (q_set == 4 && u.low < 0) || (q_set == 1 && u.high > 0) || strict_in(&strict, &u) ? 4 : 6;
    return set;
}

// ---- rounds over a list of atoms

typedef struct {
    uint8_t board[VARIABLES];
    Masks masks;
    int atoms; // those of no variable
    uint8_t number[FORMS], set[FORMS];
    bool contradiction;
    const uint8_t *floor; // the settled board above which the fresh rounds of step 5 stay, or null
} List;

static inline bool speaks(int set) { return set != 5 && set != 7; }

// ---- two atoms at once: p + u·q1 + v·q2, u and v from -4 to 4. A pair of factors is a bit of a word, 8 times the place of u and that of v,
// so that the lowest bit is the first try. ABOVE is the test for >=, BELOW the one for <=.

enum { ABOVE, BELOW, SLOTS = FORMS + VARIABLES + 1, ASKED = FORMS + VARIABLES, COLUMNS = 2 * (FORMS * TERMS + VARIABLES), WORDS = (COLUMNS + 63) / 64 };

static const int FACTOR[8] = {-4, -3, -2, -1, 1, 2, 3, 4};
#define UP 0xf0f0f0f0f0f0f0f0u // v above 0
#define HIGH 0xffffffff00000000u // u above 0
static const uint64_t QUARTER[2][2] = {{~HIGH & ~UP, ~HIGH & UP}, {HIGH & ~UP, HIGH & UP}}; // by u and v above 0

// A polynomial as p: that of a form or of a variable.
typedef struct {
    int terms;
    const int32_t *coefficient;
    const uint64_t *monomial;
    const uint8_t *sign;
} Target;

static Target target_form(int f) { return (Target){form[f].terms, form[f].coefficient, form[f].monomial, sign[f]}; }

static Target target_variable(const List *list, int i) {
    static const int32_t one = 1;
    return (Target){1, &one, &one_variable[i], &list->board[i]};
}

// The numbers of the monomials of the forms, made once for a block, the variables' first.
static bool numbered, masked; // masked: the masks below are those of the list and board at hand
static int forms, monomials;
static uint16_t monomial_number[FORMS][TERMS];

static void number_monomials(void) {
    enum { ROOM = 4096 };
    static uint64_t key[ROOM];
    static uint16_t number[ROOM];
    memset(number, 0, sizeof number);
    monomials = 0;
    for (int f = -1; f < forms; f++) {
        for (int t = 0; t < (f < 0 ? variables : form[f].terms); t++) {
            uint64_t m = f < 0 ? one_variable[t] : form[f].monomial[t];
            int at = m * 0x9e3779b97f4a7c15u >> 52;
            while (number[at] && key[at] != m) at = (at + 1) % ROOM;
            if (!number[at]) {
                key[at] = m;
                number[at] = ++monomials;
            }
            if (f >= 0) monomial_number[f][t] = number[at] - 1;
        }
    }
    numbered = true;
}

// The masks of a list on its board: columns are the monomials with a sign, and each of no sign, which must vanish, twice, once for either direction.
// A slot is an atom's place in the list, FORMS + i for x_i, or ASKED for the form that is asked about.
static int words, columns;
static int16_t column[FORMS * TERMS + VARIABLES]; // of a monomial, or -1; the second one of a monomial of no sign stands behind it
static uint64_t of_sign[2][SLOTS][WORDS]; // the columns in which the form is negative, and positive
static uint64_t in_column[2][COLUMNS];    // the places of the atoms that are negative there, and positive

static void mask_slot(int slot, const Target *p, const uint16_t *number) {
    for (int t = 0; t < p->terms; t++) {
        int s = p->sign[t], both = (s & 5) == 5 ? 2 : 1;
        if (s == 2) continue;
        if (column[number[t]] < 0) {
            column[number[t]] = columns;
            for (int k = 0; k < both; k++, columns++) in_column[0][columns] = in_column[1][columns] = 0;
        }
        int c = column[number[t]], positive = (p->coefficient[t] > 0) ^ ((s & 5) == 4);
        for (int k = 0; k < both; k++, c++, positive ^= 1) {
            of_sign[positive][slot][c >> 6] |= (uint64_t)1 << (c & 63);
            if (slot < FORMS) in_column[positive][c] |= (uint64_t)1 << slot;
        }
    }
}

static void mask_list(const List *list) {
    if (masked) return;
    masked = true;
    if (!numbered) number_monomials();
    memset(column, -1, monomials * sizeof column[0]);
    columns = 0;
    int most = 0;
    for (int q = 0; q < list->atoms; q++) most += form[list->number[q]].terms;
    words = (2 * (most + variables + TERMS) + 63) / 64;
    if (words > WORDS) words = WORDS;
    for (int slot = 0; slot < SLOTS; slot++) {
        if (slot >= list->atoms && slot < FORMS) continue;
        memset(of_sign[0][slot], 0, 8 * words);
        memset(of_sign[1][slot], 0, 8 * words);
    }
    for (int q = 0; q < list->atoms; q++) {
        Target p = target_form(list->number[q]);
        mask_slot(q, &p, monomial_number[list->number[q]]);
    }
    for (int i = 0; i < variables; i++) {
        Target p = target_variable(list, i);
        uint16_t number = i;
        mask_slot(FORMS + i, &p, &number);
    }
    words = (columns + 63) / 64;
}

// The v with t + v·b >= 0, as bits.
static inline unsigned row_at_least(int64_t t, int64_t b) {
    if (b == 0) return t >= 0 ? 0xff : 0;
    int64_t d = b < 0 ? -b : b;
    int n = (t >= -4 * d) + (t >= -3 * d) + (t >= -2 * d) + (t >= -d) + (t >= d) + (t >= 2 * d) + (t >= 3 * d) + (t >= 4 * d);
    return b > 0 ? 0xff00 >> n & 0xff : 0xff >> (8 - n);
}

// Of some factor pairs those with a + u·b1 + v·b2 >= 0.
static inline uint64_t at_least_0(uint64_t live, int64_t a, int64_t b1, int64_t b2) {
    uint64_t left = 0;
    for (int k = 0; k < 8; k++)
        if (live >> 8 * k & 0xff) left |= (uint64_t)row_at_least(a + FACTOR[k] * b1, b2) << 8 * k;
    return left & live;
}

// p and q1 merged, and the tries of both tests that are left.
typedef struct {
    int rows;
    uint64_t monomial[2 * TERMS];
    int32_t a[2 * TERMS], b[2 * TERMS];
    uint8_t sign[2 * TERMS];
} Merged;

static void merge(Merged *m, const Target *p, int f) {
    const Form *q = &form[f];
    m->rows = 0;
    for (int i = 0, j = 0; i < p->terms || j < q->terms; m->rows++) {
        int r = m->rows;
        bool of_p = j == q->terms || (i < p->terms && p->monomial[i] >= q->monomial[j]);
        bool of_q = i == p->terms || (j < q->terms && p->monomial[i] <= q->monomial[j]);
        m->monomial[r] = of_p ? p->monomial[i] : q->monomial[j];
        m->sign[r] = of_p ? p->sign[i] : sign[f][j];
        m->a[r] = of_p ? p->coefficient[i++] : 0;
        m->b[r] = of_q ? q->coefficient[j++] : 0;
    }
}

// The tries that pass: each test's, and those whose sum has a strict term.
typedef struct {
    uint64_t test[2], strict;
} Live;

static inline void narrow(Live *live, int s, int64_t a, int64_t b1, int64_t b2, bool ask_strict) {
    if (s == 2) return;
    uint64_t some = live->test[ABOVE] | live->test[BELOW];
    bool turned = (s & 5) == 4, open = (s & 5) == 5, strict = ask_strict && (s == 1 || s == 4);
    bool ask_least = strict || open || live->test[turned], ask_most = strict || open || live->test[!turned];
    uint64_t least = ask_least ? at_least_0(some, a, b1, b2) : 0;
    uint64_t most = ask_most ? at_least_0(some, -a, -b1, -b2) : 0;
    if (strict) live->strict |= some & ~(least & most);
    if (open) {
        live->test[0] &= least & most;
        live->test[1] &= least & most;
    } else {
        live->test[turned] &= least;
        live->test[!turned] &= most;
    }
}

// The monomial that was the last to let no factors pass.
static uint64_t last_monomial;

static bool last_passes(Live *live, const Merged *m, int f, bool ask_strict) {
    const Form *q = &form[f];
    int i = 0, j = 0;
    while (i < m->rows && m->monomial[i] > last_monomial) i++;
    while (j < q->terms && q->monomial[j] > last_monomial) j++;
    bool in_m = i < m->rows && m->monomial[i] == last_monomial, in_q = j < q->terms && q->monomial[j] == last_monomial;
    if (in_m || in_q) narrow(live, in_m ? m->sign[i] : sign[f][j], in_m ? m->a[i] : 0, in_m ? m->b[i] : 0, in_q ? q->coefficient[j] : 0, ask_strict);
    return live->test[0] | live->test[1];
}

static bool narrow_all(Live *live, const Merged *m, int f, bool ask_strict) {
    const Form *q = &form[f];
    if (LAST && !last_passes(live, m, f, ask_strict)) return false;
    for (int i = 0, j = 0; i < m->rows || j < q->terms;) {
        if (j == q->terms || (i < m->rows && m->monomial[i] > q->monomial[j])) {
            narrow(live, m->sign[i], m->a[i], m->b[i], 0, ask_strict);
            i++;
        } else if (i == m->rows || m->monomial[i] < q->monomial[j]) {
            narrow(live, sign[f][j], 0, 0, q->coefficient[j], ask_strict);
            j++;
        } else {
            narrow(live, m->sign[i], m->a[i], m->b[i], q->coefficient[j], ask_strict);
            i++, j++;
        }
        if (!(live->test[0] | live->test[1])) {
            last_monomial = i ? m->monomial[i - 1] : q->monomial[0];
            if (j && q->monomial[j - 1] < last_monomial) last_monomial = q->monomial[j - 1];
            return false;
        }
    }
    return true;
}

// The same, one try after the other: p + u·q1 + v·q2 is added up, and left as soon as neither test can find anything.
static bool try_all(Live *live, const Merged *m, int f) {
    const Form *q = &form[f];
    Live left = {{0, 0}, 0};
    for (uint64_t some = live->test[0] | live->test[1]; some; some &= some - 1) {
        int bit = __builtin_ctzll(some);
        int64_t u = FACTOR[bit >> 3], v = FACTOR[bit & 7];
        bool test[2] = {live->test[0] >> bit & 1, live->test[1] >> bit & 1}, strict = false;
        for (int i = 0, j = 0; (test[0] || test[1]) && (i < m->rows || j < q->terms);) {
            int64_t c;
            int s;
            if (j == q->terms || (i < m->rows && m->monomial[i] > q->monomial[j])) {
                s = m->sign[i];
                c = m->a[i] + u * m->b[i];
                i++;
            } else if (i == m->rows || m->monomial[i] < q->monomial[j]) {
                s = sign[f][j];
                c = v * q->coefficient[j++];
            } else {
                s = m->sign[i];
                c = m->a[i] + u * m->b[i] + v * q->coefficient[j++];
                i++;
            }
            if (c == 0) continue;
            if (c < 0) s = MIRROR[s];
            if (s & 4) test[ABOVE] = false;
            if (s & 1) test[BELOW] = false;
            strict |= s == 1 || s == 4;
        }
        for (int t = 0; t < 2; t++) left.test[t] |= (uint64_t)test[t] << bit;
        left.strict |= (uint64_t)strict << bit;
    }
    *live = left;
    return live->test[0] | live->test[1];
}

// The atoms by their place whose multiple with a factor below 0, or above, may take part in a test.
typedef struct {
    uint64_t allowed[2][2], strict, speaking;
} Sides;

static Sides sides_of(const List *list) {
    Sides sides = {{{0, 0}, {0, 0}}, 0, 0};
    for (int q = 0; q < list->atoms; q++) {
        int set = list->set[q];
        uint64_t bit = (uint64_t)1 << q;
        if (!speaks(set)) continue;
        sides.speaking |= bit;
        if (set == 1 || set == 4) sides.strict |= bit;
        if (!(set & 1)) sides.allowed[ABOVE][1] |= bit, sides.allowed[BELOW][0] |= bit;
        if (!(set & 4)) sides.allowed[ABOVE][0] |= bit, sides.allowed[BELOW][1] |= bit;
    }
    return sides;
}

#ifdef COUNT
// The tries for p up to the one that found something, or all of them: those whose factors allow a test.
static void count_tries(const Sides *sides, uint64_t others, int found_at) {
    for (uint64_t a = others & sides->speaking; a; a &= a - 1)
        for (uint64_t b = a & (a - 1); b; b &= b - 1) {
            int q1 = __builtin_ctzll(a), q2 = __builtin_ctzll(b);
            uint64_t some = 0;
            for (int t = 0; t < 2; t++)
                for (int u = 0; u < 2; u++)
                    for (int v = 0; v < 2; v++)
                        if (sides->allowed[t][u] >> q1 & 1 && sides->allowed[t][v] >> q2 & 1) some |= QUARTER[u][v];
            if (64 * q1 + q2 == found_at >> 6) {
                tries += __builtin_popcountll(some & (((uint64_t)2 << (found_at & 63)) - 1));
                return;
            }
            tries += __builtin_popcountll(some);
        }
}
#else
#define count_tries(sides, others, found_at) (void)(found_at)
#endif

// The places of q2 that the signs alone do not rule out, for p and q1 and for each test and sign of u and v.
static uint64_t candidates(uint64_t found[2][2][2], const Sides *sides, const bool *useful, int slot, int q1, uint64_t later) {
    uint64_t all = 0;
    for (int t = 0; t < 2; t++)
        for (int u = 0; u < 2; u++) {
            found[t][u][0] = found[t][u][1] = 0;
            if (!useful[t] || !(sides->allowed[t][u] >> q1 & 1)) continue;
            uint64_t left[2] = {later & sides->allowed[t][0], later & sides->allowed[t][1]};
            if (MASKS) {
                uint64_t good[WORDS];
                for (int w = 0; w < words && left[0] | left[1]; w++) {
                    uint64_t bad = of_sign[t][slot][w] | of_sign[t ^ u ^ 1][q1][w];
                    good[w] = of_sign[t ^ 1][slot][w] | of_sign[t ^ u][q1][w];
                    for (uint64_t need = bad & ~good[w]; need && left[0] | left[1]; need &= need - 1) {
                        int c = 64 * w + __builtin_ctzll(need);
                        for (int v = 0; v < 2; v++) left[v] &= in_column[t ^ v][c];
                    }
                }
                for (int v = 0; v < 2; v++)
                    for (uint64_t rest = left[v]; rest; rest &= rest - 1) {
                        int q2 = __builtin_ctzll(rest);
                        uint64_t missing = 0;
                        for (int w = 0; w < words && !missing; w++) missing = of_sign[t ^ v ^ 1][q2][w] & ~good[w];
                        if (missing) left[v] &= ~((uint64_t)1 << q2);
                    }
            }
            for (int v = 0; v < 2; v++) all |= found[t][u][v] = left[v];
        }
    return all;
}

// What the first try that cuts p's set leaves of it, over the pairs of some places of which one is new; the set itself if none does.
static int first_cut(const List *list, const Sides *sides, const Target *p, int slot, int set, int asked, uint64_t others, uint64_t new, int *found_at) {
    // > is not cut by the test for >=, nor < by the other; where only one sign or zero beside it is left, a strict finding alone can cut. (asked: 1 for the
    // test for >=, 2 for the other.)
    bool useful[2] = {(!USEFUL || set & 6) && asked & 1, (!USEFUL || set & 3) && asked & 2}, weak[2] = {set & 4, set & 1};
    others &= sides->speaking;
    for (uint64_t first = others; first; first &= first - 1) {
        int q1 = __builtin_ctzll(first);
        uint64_t later = first & (first - 1), found[2][2][2];
        if (!(new >> q1 & 1)) later &= new;
        if (!later) continue;
        Merged merged;
        merged.rows = 0;
        for (uint64_t rest = candidates(found, sides, useful, slot, q1, later); rest; rest &= rest - 1) {
            int q2 = __builtin_ctzll(rest);
            Live live = {{0, 0}, 0};
            for (int t = 0; t < 2; t++)
                for (int u = 0; u < 2; u++)
                    for (int v = 0; v < 2; v++)
                        if (found[t][u][v] >> q2 & 1) live.test[t] |= QUARTER[u][v];
            bool strict = (sides->strict >> q1 | sides->strict >> q2) & 1;
            if (merged.rows == 0) merge(&merged, p, list->number[q1]);
            if (!(BITS ? narrow_all(&live, &merged, list->number[q2], !strict) : try_all(&live, &merged, list->number[q2]))) continue;
            if (strict) live.strict = ~(uint64_t)0;
            uint64_t cuts = 0;
            for (int t = 0; t < 2; t++) cuts |= live.test[t] & (weak[t] ? ~(uint64_t)0 : live.strict) & (set & (t ? 3 : 6) ? ~(uint64_t)0 : 0);
            if (!cuts) continue;
            int bit = __builtin_ctzll(cuts);
            bool is_strict = live.strict >> bit & 1;
            if (live.test[ABOVE] >> bit & 1) set &= is_strict ? 1 : 3;
            if (live.test[BELOW] >> bit & 1) set &= is_strict ? 4 : 6;
            *found_at = 64 * (64 * q1 + q2) + bit;
            return set;
        }
    }
    return set;
}

// What was tried in vain: on a board, with these sets of the atoms, by their forms; and for each p (a form, or FORMS + i) with which set of its own,
// and the forms that were not in the list when it was last tried or have changed since: a pair without them need not be tried again.
typedef struct {
    uint8_t board[VARIABLES], set[FORMS], done[FORMS + VARIABLES];
    uint64_t changed[FORMS + VARIABLES];
} Vain;

static Vain vains[2], *vain = &vains[0], *last_settled = &vains[0];

static void forget(void) {
    memset(vains, 0, sizeof vains);
    numbered = false;
}

static void remember(const List *list) {
    vain = AGAIN < 2 || last_settled == &vains[1] ? &vains[0] : &vains[1];
    if (AGAIN > 1 && !memcmp(last_settled->board, list->board, variables)) vain = last_settled;
    if (memcmp(vain->board, list->board, variables)) {
        memcpy(vain->board, list->board, variables);
        memset(vain->done, 0, sizeof vain->done);
    }
    uint64_t changed = 0;
    for (int q = 0; q < list->atoms; q++) {
        int f = list->number[q];
        if (vain->set[f] != list->set[q]) changed |= (uint64_t)1 << f;
        vain->set[f] = list->set[q];
    }
    if (changed)
        for (int p = 0; p < FORMS + VARIABLES; p++) vain->changed[p] |= changed;
}

// The places of the atoms of which a pair with p must have one to be worth a try.
static uint64_t to_be_tried(const List *list, int p, int set, uint64_t present) {
    if (!AGAIN || !vain->done[p] || set & ~vain->done[p]) return ~(uint64_t)0;
    uint64_t new = 0;
    if (vain->changed[p] & present)
        for (int q = 0; q < list->atoms; q++) new |= (vain->changed[p] >> list->number[q] & 1) << q;
    return new;
}

static void tried_in_vain(int p, int set, uint64_t present) {
    vain->changed[p] = ~present;
    vain->done[p] = set;
}

static uint64_t forms_of(const List *list) {
    uint64_t present = 0;
    for (int q = 0; q < list->atoms; q++) present |= (uint64_t)1 << list->number[q];
    return present;
}

// The search for one p, over all pairs of the list but those with p itself.
static int search_one(const List *list, const Sides *sides, const Target *target, int slot, int p, int set, uint64_t present, int *found_at) {
    uint64_t others = slot < FORMS ? ~((uint64_t)1 << slot) : ~(uint64_t)0;
    int cut = first_cut(list, sides, target, slot, set, 3, others, to_be_tried(list, p, set, present), found_at);
    count_tries(sides, others, *found_at);
    if (cut == set) tried_in_vain(p, set, present);
    return cut;
}

static void cut_variable(List *list, int i, int set) {
    list->board[i] = set;
    list->masks = masks_of(list->board);
    masked = false;
    for (int q = 0; q < list->atoms; q++) sign_form(&list->masks, list->number[q], one_variable[i]);
}

// After a round that changed nothing. Whether another one begins.
static bool search_changes(List *list) {
    Sides sides = sides_of(list);
    if (!PAIRS || !(sides.speaking & (sides.speaking - 1))) return false;
    if (FRESH && list->floor && !memcmp(list->floor, list->board, variables)) return false;
    if (MASKS) mask_list(list);
    remember(list);
    uint64_t present = forms_of(list);
    int found_at = -1;
    for (int i = 0; i < variables; i++) {
        if (FRESH && list->floor && list->board[i] == list->floor[i]) continue;
        Target p = target_variable(list, i);
        int set = search_one(list, &sides, &p, FORMS + i, FORMS + i, list->board[i], present, &found_at);
        if (set == list->board[i]) continue;
        if (!set) list->contradiction = true;
        if (set) cut_variable(list, i, set);
        return set;
    }
    for (int k = 0; k < list->atoms && !(FRESH && list->floor); k++) {
        Target p = target_form(list->number[k]);
        int set = search_one(list, &sides, &p, k, list->number[k], list->set[k], present, &found_at);
        if (set == list->set[k]) continue;
        list->set[k] = set;
        if (!set) list->contradiction = true;
        return set;
    }
    if (!list->floor) last_settled = vain;
    return false;
}

// What all tries over the pairs of some places leave of the set of a form that is asked about; nothing more is asked where the set lies inside the goal,
// nor, if that alone is to be known, where it cannot.
static int cut_by_pairs(const List *list, int f, int place, int set, int goal, bool only_goal, uint64_t others) {
    Sides sides = sides_of(list);
    uint64_t some = others & sides.speaking;
    if (!PAIRS || !(some & (some - 1))) return set;
    Target p = target_form(f);
    int slot = place < 0 ? ASKED : place, own = columns;
    if (MASKS) mask_list(list);
    if (MASKS && place < 0) {
        own = columns;
        memset(of_sign[0][slot], 0, sizeof of_sign[0][slot]);
        memset(of_sign[1][slot], 0, sizeof of_sign[1][slot]);
        mask_slot(slot, &p, monomial_number[f]);
        words = (columns + 63) / 64;
    }
    count_tries(&sides, others, -1);
    uint64_t present = forms_of(list), new = ~(uint64_t)0;
    if (!only_goal) {
        remember(list);
        new = to_be_tried(list, f, set, present);
    }
    for (int before = -1, found_at = -1; before != set && (set & ~goal);) {
        before = set;
        int asked = !only_goal ? 3 : set & ~goal & 4 ? 1 : set & ~goal & 1 ? 2 : 3;
        set = first_cut(list, &sides, &p, slot, set, asked, others, new, &found_at);
        if (set == before && !only_goal) tried_in_vain(f, set, present);
    }
    if (MASKS && place < 0) {
        for (int t = 0; t < p.terms; t++)
            if (column[monomial_number[f][t]] >= own) column[monomial_number[f][t]] = -1;
        columns = own;
        words = (columns + 63) / 64;
    }
    return set;
}

static int deduced_variable(const List *list, int i, int set) {
    static const int32_t one = 1;
    uint8_t s = list->board[i];
    bool open = (s & 5) == 5;
    for (int q = 0; q < list->atoms && !EMPTY(set); q++) {
        if (!speaks(list->set[q])) continue;
        COUNTED(deductions);
        int f = list->number[q];
        // where the variable's own monomial has no sign and does not occur in q, there is no t
        if (open && !(form[f].linear >> i & 1)) continue;
        set = deduced(set, 1, &one, &one_variable[i], &s, f, list->set[q]);
    }
    return set;
}

static int deduced_form(const List *list, const uint8_t *sets, int f, int set, int left_out) {
    for (int q = 0; q < list->atoms && !EMPTY(set); q++) {
        if (q == left_out || !speaks(sets[q])) continue;
        COUNTED(deductions);
        set = deduced(set, form[f].terms, form[f].coefficient, form[f].monomial, sign[f], list->number[q], sets[q]);
    }
    return set;
}

static bool round_changes(List *list) {
    COUNTED(rounds);
    bool changed = false;
    for (int i = 0; i < variables; i++) {
        int set = deduced_variable(list, i, list->board[i]);
        if (set == list->board[i]) continue;
        changed = true;
        if (!set) {
            list->contradiction = true;
            return false;
        }
        cut_variable(list, i, set);
    }
    uint8_t before[FORMS];
    memcpy(before, list->set, list->atoms);
    for (int p = 0; p < list->atoms; p++) {
        int f = list->number[p];
        int set = deduced_form(list, before, f, before[p] & sign_by_terms(f), p);
        if (set == before[p]) continue;
        changed = true;
        list->set[p] = set;
        if (!set) {
            list->contradiction = true;
            return false;
        }
    }
    return changed;
}

// The list of some tokens, the one at left_out not among them, after its rounds.
static void run(List *list, const uint16_t *token, int count, int left_out, const uint8_t *floor) {
    memset(list->board, 7, sizeof list->board);
    masked = false;
    list->floor = floor;
    list->atoms = 0;
    list->contradiction = false;
    for (int k = 0; k < count; k++) {
        if (k == left_out) continue;
        int f = token[k] >> 3;
        if (form[f].variable >= 0) {
            list->board[form[f].variable] = token[k] & 7;
        } else {
            list->number[list->atoms] = f;
            list->set[list->atoms++] = token[k] & 7;
        }
    }
    list->masks = masks_of(list->board);
    for (int q = 0; q < list->atoms; q++) sign_form(&list->masks, list->number[q], 0);
    do {
        while (round_changes(list)) {
        }
    } while (!list->contradiction && search_changes(list));
}

// What the list says of a form, whose signs are not at hand unless it is listed; or a set inside the goal, if that lies inside it.
static int says(const List *list, int f, int goal) {
    if (list->contradiction) return 0;
    int set = 7, place = 0;
    while (place < list->atoms && list->number[place] != f) place++;
    if (form[f].variable >= 0) set = list->board[form[f].variable];
    else if (place < list->atoms) set = list->set[place];
    sign_form(&list->masks, f, 0);
    set = deduced_form(list, list->set, f, set & sign_by_terms(f), -1);
    if (place < list->atoms) return SAYS && !COUNTING ? set : cut_by_pairs(list, f, place, set, goal, false, ~((uint64_t)1 << place));
    return SAYS && !COUNTING && form[f].variable >= 0 ? set : cut_by_pairs(list, f, -1, set, goal, false, ~(uint64_t)0);
}

// Whether the settled list, without the atom at a place, does not imply a set of its.
static bool stays(const List *list, int place, int goal) {
    int f = list->number[place];
    int set = deduced_form(list, list->set, f, sign_by_terms(f), place);
    return cut_by_pairs(list, f, place, set, goal, USEFUL, ~((uint64_t)1 << place)) & ~goal;
}

// ---- a level: atoms as tokens, 8 times the form's number and the set; children as a tape, each its head, its atoms and its own children.
// A head is 256 times the number of its atoms and the length of its own children's tape. A child's sets are complemented.

typedef struct {
    int atoms, length;
    uint16_t atom[NODES], child[NODES];
} Level;

#define NODE 0x8000

static void is_false(Level *level) {
    level->atoms = 0;
    level->length = 1;
    level->child[0] = 0;
}

static inline int head_atoms(uint16_t head) { return head >> 8; }
static inline int head_length(uint16_t head) { return head & 255; }

// A child enters: false (no parts), one atom that joins, one AND that is spliced, or it stays.
typedef struct {
    bool falls, moved;
    Level level; // the atoms that joined, and the children that stay
} Walk;

static void enter(Walk *walk, const uint16_t *atom, int atoms, const uint16_t *child, int length) {
    Level *to = &walk->level;
    if (atoms == 0 && length == 0) {
        walk->falls = true;
    } else if (atoms == 1 && length == 0) {
        walk->moved = true;
        to->atom[to->atoms++] = atom[0] ^ 7;
    } else if (atoms == 0 && 1 + head_atoms(child[0]) + head_length(child[0]) == length) {
        walk->moved = true;
        int n = head_atoms(child[0]);
        memcpy(to->atom + to->atoms, child + 1, 2 * n);
        to->atoms += n;
        memcpy(to->child + to->length, child + 1 + n, 2 * (length - 1 - n));
        to->length += length - 1 - n;
    } else {
        to->child[to->length++] = atoms << 8 | length;
        memcpy(to->child + to->length, atom, 2 * atoms);
        memcpy(to->child + to->length + atoms, child, 2 * length);
        to->length += atoms + length;
    }
}

// Step 2. Whether the node may still hold.
static bool tidy(Level *level) {
    int8_t place[FORMS];
    memset(place, -1, sizeof place);
    int n = 0;
    for (int k = 0; k < level->atoms; k++) {
        int f = level->atom[k] >> 3;
        if (place[f] >= 0) {
            level->atom[place[f]] &= level->atom[k] | ~7;
        } else {
            place[f] = n;
            level->atom[n++] = level->atom[k];
        }
    }
    level->atoms = 0;
    for (int k = 0; k < n; k++) {
        int set = level->atom[k] & 7;
        bool constant = form[level->atom[k] >> 3].constant;
        if (set == 7 || (constant && set & 1)) continue;
        if (set == 0 || constant) return false;
        level->atom[level->atoms++] = level->atom[k];
    }
    return true;
}

// Step 4. What the list says of each direct atom of each child.
static void sweep(const List *list, const Level *level, Walk *walk) {
    walk->falls = walk->moved = false;
    walk->level.atoms = walk->level.length = 0;
    for (int at = 0; at < level->length && !walk->falls;) {
        int atoms = head_atoms(level->child[at]), length = head_length(level->child[at]);
        const uint16_t *atom = level->child + at + 1;
        at += 1 + atoms + length;
        uint16_t left[NODES];
        int n = 0;
        bool implied = false;
        for (int k = 0; k < atoms && !implied; k++) {
            int set = ~atom[k] & 7, said = says(list, atom[k] >> 3, USEFUL ? set : 0);
            implied = (said & ~set) == 0;
            if (said & set) left[n++] = (atom[k] & ~7) | (~(said & set) & 7);
        }
        if (!implied) enter(walk, left, n, atom + atoms, length);
    }
}

// Step 5, for a level whose list has settled.
static void remove_implied(Level *level, List *settled) {
    bool afresh = false; // the signs at hand are those of a fresh run
    for (int k = 0, place = 0; k < level->atoms;) {
        int f = level->atom[k] >> 3, set = level->atom[k] & 7;
        bool variable = form[f].variable >= 0;
        if (STAYS && !variable) {
            if (afresh) {
                for (int q = 0; q < settled->atoms; q++) sign_form(&settled->masks, settled->number[q], 0);
                afresh = masked = false;
            }
            if (stays(settled, place, set)) {
                k++, place++;
                continue;
            }
        }
        List list;
        run(&list, level->atom, level->atoms, k, settled->board);
        afresh = true;
        if (says(&list, f, USEFUL ? set : 0) & ~set) {
            k++, place += !variable;
            continue;
        }
        memmove(level->atom + k, level->atom + k + 1, 2 * (--level->atoms - k));
        if (!variable) {
            memmove(settled->number + place, settled->number + place + 1, --settled->atoms - place);
            memmove(settled->set + place, settled->set + place + 1, settled->atoms - place);
        }
    }
}

// Steps 2 to 6.
static void settle(Level *level) {
    List list;
    Walk walk;
    do {
        if (!tidy(level)) return is_false(level);
        run(&list, level->atom, level->atoms, -1, NULL);
        if (list.contradiction) return is_false(level);
        for (int k = 0, next = 0; k < level->atoms; k++) {
            int v = form[level->atom[k] >> 3].variable;
            level->atom[k] = (level->atom[k] & ~7) | (v >= 0 ? list.board[v] : list.set[next++]);
        }
        if (level->length == 0) break;
        sweep(&list, level, &walk);
        if (walk.falls) return is_false(level);
        memcpy(level->atom + level->atoms, walk.level.atom, 2 * walk.level.atoms);
        level->atoms += walk.level.atoms;
        memcpy(level->child, walk.level.child, 2 * walk.level.length);
        level->length = walk.level.length;
    } while (walk.moved);
    remove_implied(level, &list);
}

static const uint16_t *skip(const uint16_t *token) {
    for (int due = 1; due > 0; due--, token++) {
        if (*token & NODE) due += *token & 255;
    }
    return token;
}

// The AND rule on the node at a token, or with flip = 7 the OR rule. Gives the token after the node.
static const uint16_t *rule(const uint16_t *token, int flip, Level *level) {
    Walk walk = {.falls = false, .moved = false};
    walk.level.atoms = walk.level.length = level->atoms = 0;
    for (int parts = *token++ & 255; parts > 0; parts--) {
        if (!(*token & NODE)) {
            level->atom[level->atoms++] = *token++ ^ flip;
        } else if (walk.falls) {
            token = skip(token);
        } else {
            Level child;
            token = rule(token, flip ^ 7, &child);
            enter(&walk, child.atom, child.atoms, child.child, child.length);
        }
    }
    if (walk.falls) {
        is_false(level);
        return token;
    }
    memcpy(level->atom + level->atoms, walk.level.atom, 2 * walk.level.atoms);
    level->atoms += walk.level.atoms;
    memcpy(level->child, walk.level.child, 2 * walk.level.length);
    level->length = walk.level.length;
    settle(level);
    return token;
}

// ---- reading

typedef struct {
    const uint8_t *byte;
    size_t at, bits;
    int polynomials, nodes, read;
    uint16_t token[NODES];
} Reader;

// A field of at most 32 bits.
static uint32_t get(Reader *r, int width) {
    size_t first = r->at >> 3, bytes = r->bits >> 3;
    uint64_t word = 0;
    if (first + 8 <= bytes) {
        memcpy(&word, r->byte + first, 8);
        word = __builtin_bswap64(word);
    } else {
        for (size_t k = 0; k < 8; k++) word = word << 8 | (first + k < bytes ? r->byte[first + k] : 0);
    }
    word <<= r->at & 7;
    r->at += width;
    return width ? word >> (64 - width) : 0;
}

static inline bool has(const Reader *r, int width) { return r->bits - r->at >= (size_t)width; }

// Edition 1: minus, magnitude and the exponents. Refusals 6 and 8, or 0.
static inline int read_term(Reader *r, uint32_t *c, uint64_t *m) {
    int exponents = 4 * variables;
    if (!has(r, 32 + exponents)) return 6;
    *c = get(r, 32);
    *m = exponents > 32 ? (uint64_t)get(r, exponents - 32) << 32 | get(r, 32) : get(r, exponents);
    return *c & 0x7fffffff ? 0 : 8;
}

// Edition 2: minus, magnitude, how many pairs, and the pairs of variable number and exponent. Refusals 6, 8 and 21 to 23, or 0.
static inline int read_pairs(Reader *r, uint32_t *c, uint64_t *m) {
    if (!has(r, 37)) return 6;
    *c = get(r, 32);
    int pairs = get(r, 5), before = -1;
    if ((*c & 0x7fffffff) == 0) return 8;
    if (pairs > variables) return 21;
    if (!has(r, 8 * pairs)) return 6;
    bool rising = true, above = true;
    for (*m = 0; pairs > 0; pairs--) {
        int number = get(r, 4), exponent = get(r, 4);
        rising &= before < number && number < variables;
        above &= exponent > 0;
        if (rising) *m |= (uint64_t)exponent << 4 * (variables - 1 - number);
        before = number;
    }
    return !rising ? 22 : !above ? 23 : 0;
}

static int read_polynomial(Reader *r, Form *f) {
    if (!has(r, 5)) return 6;
    f->terms = get(r, 5);
    if (f->terms == 0 || f->terms > TERMS) return 7;
    for (int t = 0; t < f->terms; t++) {
        uint32_t c;
        uint64_t m;
        int refusal = edition == 1 ? read_term(r, &c, &m) : read_pairs(r, &c, &m);
        if (refusal) return refusal;
        if (t > 0 && m >= f->monomial[t - 1]) return 9;
        f->coefficient[t] = c >> 31 ? -(int32_t)(c & 0x7fffffff) : (int32_t)c;
        f->monomial[t] = m;
    }
    return 0;
}

static int read_node(Reader *r, int parent, int nesting) {
    if (r->read == r->nodes) return 14;
    if (!has(r, 2)) return 6;
    int kind = get(r, 2);
    if (kind == 3) return 10;
    if (kind == 0) {
        if (!has(r, 9)) return 6;
        int atom = get(r, 9);
        if (atom >> 3 >= r->polynomials) return 11;
        r->token[r->read++] = atom;
        return 0;
    }
    if (!has(r, 8)) return 6;
    int parts = get(r, 8);
    if (kind == parent) return 12;
    if (nesting == 6) return 13;
    r->token[r->read++] = NODE | parts;
    for (; parts > 0; parts--) {
        int refusal = read_node(r, kind, nesting + 1);
        if (refusal) return refusal;
    }
    return 0;
}

// Refusals 2 to 15 and 21 to 23, or 0. The root's kind is its first two bits.
static int read_block(Reader *r, const uint8_t *byte, size_t length, int *root) {
    if (length < 5) return 2;
    r->byte = byte;
    r->at = 0;
    r->bits = 8 * length;
    edition = get(r, 4);
    variables = get(r, 5);
    r->polynomials = get(r, 7);
    r->nodes = get(r, 8);
    r->read = 0;
    size_t told = get(r, 16);
    if (edition != 1 && edition != 2) return 3;
    if (told != length) return 4;
    if (variables < 1 || variables > VARIABLES || r->polynomials > FORMS || r->nodes == 0) return 5;
    forms = r->polynomials;
    for (int k = 0; k < r->polynomials; k++) {
        int refusal = read_polynomial(r, &form[k]);
        if (refusal) return refusal;
    }
    size_t tree = r->at;
    int refusal = read_node(r, 0, 0);
    if (refusal) return refusal;
    if (r->read != r->nodes) return 14;
    int padding = r->bits - r->at < 8 ? (int)(r->bits - r->at) : 8;
    if (padding == 8 || get(r, padding) != 0) return 15;
    r->at = tree;
    *root = get(r, 2);
    return 0;
}

// ---- normal form

static uint32_t common_divisor(uint32_t a, uint32_t b) {
    while (b) {
        uint32_t rest = a % b;
        a = b;
        b = rest;
    }
    return a;
}

static bool same_form(const Form *one, const Form *other) {
    return one->terms == other->terms && !memcmp(one->monomial, other->monomial, 8 * one->terms) && !memcmp(one->coefficient, other->coefficient, 4 * one->terms);
}

// Brings the polynomials to normal form, in their places, and the atoms' tokens to the first of equal forms.
static void to_forms(Reader *r) {
    uint8_t number[FORMS];
    bool turned[FORMS];
    for (int i = 0; i < variables; i++) one_variable[i] = (uint64_t)1 << 4 * (variables - 1 - i);
    for (int k = 0; k < r->polynomials; k++) {
        Form *f = &form[k];
        turned[k] = f->coefficient[0] < 0;
        uint32_t divisor = 0;
        for (int t = 0; t < f->terms && divisor != 1; t++) divisor = common_divisor(f->coefficient[t] < 0 ? -f->coefficient[t] : f->coefficient[t], divisor);
        if (divisor != 1 || turned[k]) {
            int32_t by = turned[k] ? -(int32_t)divisor : (int32_t)divisor;
            for (int t = 0; t < f->terms; t++) f->coefficient[t] /= by;
        }
        number[k] = 0;
        while (!same_form(&form[number[k]], f)) number[k]++;
        if (number[k] < k) continue;
        f->constant = f->monomial[0] == 0;
        f->variable = -1;
        f->linear = 0;
        for (int t = 0; t < f->terms; t++) {
            uint64_t m = f->monomial[t];
            f->occurs[t] = (m | m >> 1 | m >> 2 | m >> 3) & LOW_BITS;
            if (m == f->occurs[t] && m && !(m & (m - 1))) f->linear |= 1 << (variables - 1 - __builtin_ctzll(m) / 4);
        }
        if (f->terms == 1 && f->linear) f->variable = __builtin_ctz(f->linear);
    }
    for (int k = 0; k < r->nodes; k++) {
        if (r->token[k] & NODE) continue;
        int p = r->token[k] >> 3, set = r->token[k] & 7;
        r->token[k] = number[p] << 3 | (turned[p] ? MIRROR[set] : set);
    }
}

// ---- writing

typedef struct {
    uint8_t *byte;
    size_t at;
    uint64_t word; // the bits that are not written yet, the last ones lowest
    int pending;
} Writer;

// A field of at most 32 bits.
static inline void put(Writer *w, uint32_t value, int width) {
    w->word = w->word << width | value;
    w->pending += width;
    while (w->pending >= 8) {
        w->pending -= 8;
        w->byte[w->at++] = w->word >> w->pending;
    }
}

typedef struct {
    int atoms, nodes, forms;
    int8_t number[FORMS];
    uint8_t used[FORMS];
    uint16_t token[NODES]; // kinds in the bits of NODE and below: NODE | kind << 13 | parts
} Tree;

static void tell_atoms(Tree *tree, const uint16_t *atom, int atoms, int flip) {
    for (int k = 0; k < atoms; k++) {
        int f = atom[k] >> 3;
        if (tree->number[f] < 0) {
            tree->number[f] = tree->forms;
            tree->used[tree->forms++] = f;
        }
        tree->token[tree->nodes++] = tree->number[f] << 3 | ((atom[k] & 7) ^ flip);
    }
    tree->atoms += atoms;
}

static int parts_in(const uint16_t *child, int length) {
    int parts = 0;
    for (int at = 0; at < length; at += 1 + head_atoms(child[at]) + head_length(child[at])) parts++;
    return parts;
}

// The children of a tape: ANDs with flip = 0, ORs with flip = 7.
static void tell_children(Tree *tree, const uint16_t *child, int length, int flip) {
    for (int at = 0; at < length;) {
        int atoms = head_atoms(child[at]), own = head_length(child[at]);
        const uint16_t *atom = child + at + 1;
        at += 1 + atoms + own;
        tree->token[tree->nodes++] = NODE | (flip ? 2 : 1) << 13 | (atoms + parts_in(atom + atoms, own));
        tell_atoms(tree, atom, atoms, flip);
        tell_children(tree, atom + atoms, own, flip ^ 7);
    }
}

// The exponents above 0 in edition 2: how many, and each variable's number with its own.
static void put_pairs(Writer *w, uint64_t monomial, uint64_t occurs) {
    put(w, __builtin_popcountll(occurs), 5);
    for (int i = 0; i < variables; i++) {
        int exponent = monomial >> 4 * (variables - 1 - i) & 15;
        if (exponent) put(w, i << 4 | exponent, 8);
    }
}

static size_t write_block(const Tree *tree, uint8_t *output) {
    size_t bits = 40;
    for (int k = 0; k < tree->forms; k++) {
        const Form *f = &form[tree->used[k]];
        bits += 5 + f->terms * (edition == 1 ? 32 + 4 * variables : 37);
        for (int t = 0; t < f->terms && edition == 2; t++) bits += 8 * __builtin_popcountll(f->occurs[t]);
    }
    bits += 11 * tree->atoms + 10 * (tree->nodes - tree->atoms);
    size_t length = (bits + 7) / 8;
    Writer w = {output, 0, 0, 0};
    put(&w, edition << 12 | variables << 7 | tree->forms, 16);
    put(&w, tree->nodes, 8);
    put(&w, length, 16);
    for (int k = 0; k < tree->forms; k++) {
        const Form *f = &form[tree->used[k]];
        put(&w, f->terms, 5);
        for (int t = 0; t < f->terms; t++) {
            int32_t c = f->coefficient[t];
            put(&w, c < 0 ? 0x80000000u | (uint32_t)-c : (uint32_t)c, 32);
            if (edition == 2) {
                put_pairs(&w, f->monomial[t], f->occurs[t]);
                continue;
            }
            if (variables > 8) put(&w, f->monomial[t] >> 32, 4 * variables - 32);
            put(&w, (uint32_t)f->monomial[t], variables > 8 ? 32 : 4 * variables);
        }
    }
    for (int k = 0; k < tree->nodes; k++) {
        uint16_t token = tree->token[k];
        if (token & NODE) put(&w, (token >> 13 & 3) << 8 | (token & 255), 10);
        else put(&w, token, 11);
    }
    if (w.pending) put(&w, 0, 8 - w.pending);
    return length;
}

// ---- the answer

typedef struct {
    int refusal;
    const char *verdict;
    size_t length;
    int atoms_in, atoms_out, polynomials_in, polynomials_out;
} Answer;

static __attribute__((noinline)) Answer simplify(const uint8_t *input, size_t length, uint8_t *output, size_t room) {
    Answer answer = {.refusal = 1};
    if (room < length) return answer;
    Reader r;
    int root;
    answer.refusal = read_block(&r, input, length, &root);
    if (answer.refusal) return answer;
    to_forms(&r);
    forget();
    uint64_t named = 0; // the forms that atoms name, but for a constant
    for (int k = 0; k < r.nodes; k++) {
        if (r.token[k] & NODE) continue;
        answer.atoms_in++;
        if (!form[r.token[k] >> 3].constant) named |= (uint64_t)1 << (r.token[k] >> 3);
    }
    answer.polynomials_in = __builtin_popcountll(named);
    Level level;
    int flip = root == 2 ? 7 : 0;
    if (root == 0) {
        level.atoms = 1;
        level.length = 0;
        level.atom[0] = r.token[0];
        settle(&level);
    } else {
        rule(r.token, flip, &level);
    }
    Tree tree;
    tree.atoms = tree.nodes = tree.forms = 0;
    memset(tree.number, -1, sizeof tree.number);
    int parts = level.atoms + parts_in(level.child, level.length);
    if (parts != 1) tree.token[tree.nodes++] = NODE | (flip ? 2 : 1) << 13 | parts;
    tell_atoms(&tree, level.atom, level.atoms, flip);
    tell_children(&tree, level.child, level.length, flip ^ 7);
    answer.verdict = tree.atoms ? "FORMULA" : tree.token[0] >> 13 & 1 ? "ALWAYS" : "UNSATISFIABLE";
    answer.atoms_out = tree.atoms;
    answer.polynomials_out = tree.forms;
    answer.length = write_block(&tree, output);
    return answer;
}

// ---- the program: a stream of blocks, each after its length in 2 bytes; or `repeat`: how often, in 4 bytes, then one block

static uint8_t input[65536], output[65536];

static void tell(const Answer *answer) {
#ifdef COUNT
    printf("%ld %ld %ld\n", deductions, rounds, tries);
    deductions = rounds = tries = 0;
    return;
#endif
    if (answer->refusal) {
        printf("REFUSED %d\n", answer->refusal);
        return;
    }
    printf("%s %d %d %d %d\n", answer->verdict, answer->atoms_in, answer->atoms_out, answer->polynomials_in, answer->polynomials_out);
    for (size_t k = 0; k < answer->length; k++) {
        if (k) putchar(' ');
        putchar("0123456789abcdef"[output[k] >> 4]);
        putchar("0123456789abcdef"[output[k] & 15]);
    }
    putchar('\n');
}

static size_t most(size_t length) { return length < 32768 ? length : 32768; }

int main(int count, char **words) {
    uint8_t head[4];
    if (count == 2 && !strcmp(words[1], "repeat")) {
        if (fread(head, 1, 4, stdin) != 4) return 1;
        uint32_t times = (uint32_t)head[0] << 24 | head[1] << 16 | head[2] << 8 | head[3];
        size_t length = fread(input, 1, most(sizeof input), stdin);
        Answer answer = simplify(input, length, output, length);
        for (; times > 1; times--) answer = simplify(input, length, output, length);
        tell(&answer);
        return 0;
    }
    for (size_t got; (got = fread(head, 1, 2, stdin)) > 0;) {
        size_t length = got == 2 ? (size_t)head[0] << 8 | head[1] : 0;
        if (got < 2 || fread(input, 1, length, stdin) < length) {
            puts("CUT OFF");
            break;
        }
        Answer answer = simplify(input, most(length), output, most(length));
        tell(&answer);
    }
    return 0;
}
