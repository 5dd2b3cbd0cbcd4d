/* Makes every call of kitchen.h on the examples of docs/RULES.md, by the bytes of their files, and compares what it returns,
 * all words of `out` and all of the buffer with what the rules say; every reason is among them, by the header's name.
 *
 * It prints how many answers of each call were as they have to be, and ends with 0; or what is not, and ends with 1. */
#include "kitchen.h"

#include <stdio.h>

#define BYTES(...) ((const uint8_t[]){__VA_ARGS__})
#define SLICE(array) (array), sizeof(array) / sizeof(array)[0]
#define EIGHT(low) low, 0, 0, 0, 0, 0, 0, 0
#define FOUR(low) low, 0, 0, 0

/* the articles 0 with wish 0; 1 with wish 1, clashing with 0; 2 with wishes 0 and 1; order {0, 1} */
#define ONE 3, EIGHT(2), EIGHT(1)
#define TWO 1, EIGHT(3)
#define A_WITH(order, ...) 67, 3, 2, EIGHT(order), 1, EIGHT(1), __VA_ARGS__
#define OF_A A_WITH(3, ONE, TWO)
static const uint8_t A[] = {OF_A}, A_LONGER[] = {OF_A, 0};
/* the same, where article 2 has the name "ab" */
#define TWO_NAMED 5, EIGHT(3), 2, 'a', 'b'
static const uint8_t A_NAMED[] = {A_WITH(3, ONE, TWO_NAMED)};
/* A with the prices -150, -150 and 100 in cents: of its selections 4, 5 and 6 the last two have the total -50 */
#define BELOW_ZERO 0x6A, 0xFF, 0xFF, 0xFF
#define P_WITH(order, ...) 67, 3, 2, EIGHT(order), 9, EIGHT(1), BELOW_ZERO, 11, EIGHT(2), EIGHT(1), BELOW_ZERO, __VA_ARGS__
static const uint8_t P[] = {P_WITH(3, 9, EIGHT(3), FOUR(100))}, P_ZERO[] = {P_WITH(3, 9, EIGHT(3), FOUR(0))};
/* an article with nothing but the lowest price, and two with nothing but the highest */
static const uint8_t LOWEST[] = {67, 1, 0, EIGHT(0), 8, 0, 0, 0, 0x80};
static const uint8_t HIGHEST[] = {67, 2, 1, EIGHT(1), 8, 0xFF, 0xFF, 0xFF, 0x7F, 9, EIGHT(1), 0xFF, 0xFF, 0xFF, 0x7F};
/* articles with nothing but a name: 0 is "Büfett" with ü as one character, 5 the same with u and a mark, and 1 "Tür" with u and a mark;
 * 2 is a with marks of two classes, U+0301 and U+0323, and 3 with two of one class, U+0301 and U+0300; 4 is U+212B, which is not covered,
 * 6 is u and the first byte of a mark, which is not UTF-8, and 7 is U+0344 sixteen times */
#define AS_ONE 0xC3, 0xBC
#define AS_TWO 'u', 0xCC, 0x88
#define BUFETT(u) 'B', u, 'f', 'e', 't', 't'
#define FOUR_TIMES(...) __VA_ARGS__, __VA_ARGS__, __VA_ARGS__, __VA_ARGS__
static const uint8_t NAMED[] = {67, 8, 0, EIGHT(0), 4, 7, BUFETT(AS_ONE), 4, 5, 'T', AS_TWO, 'r', 4, 5, 'a', 0xCC, 0x81, 0xCC, 0xA3,
    4, 5, 'a', 0xCC, 0x81, 0xCC, 0x80, 4, 3, 0xE2, 0x84, 0xAB, 4, 8, BUFETT(AS_TWO), 4, 2, 'u', 0xCC, 4, 32, FOUR_TIMES(FOUR_TIMES(0xCD, 0x84))};
/* a step with nothing but the name "Büfett", with u and a mark */
static const uint8_t NAMED_STEP[] = {70, 1, 0, 0, FOUR(0), FOUR(0), 8, 8, BUFETT(AS_TWO)};
/* the articles 0 with wish 0; 1 with wishes 0 and 1, clashing with 0; 2 with wish 2; order {0, 1, 2}, and the same with the order {0} */
#define OF_B(order) 67, 3, 3, EIGHT(order), 1, EIGHT(1), 3, EIGHT(3), EIGHT(1), 1, EIGHT(4)
static const uint8_t B[] = {OF_B(7)}, B_FEW[] = {OF_B(1)};
/* the articles 0 and 1 of A without the others: both are in one group, and the order {0, 1} falls short */
static const uint8_t APART[] = {67, 2, 2, EIGHT(3), 1, EIGHT(1), ONE};
/* two articles with wish 0, in a group each, and none with wish 1; order empty */
static const uint8_t UNCARRIED[] = {67, 2, 2, EIGHT(0), 1, EIGHT(1), 1, EIGHT(1)};
/* the steps 0: needs 0, gives 1, takes 0; 1: needs 1, gives 2; 2: needs 1, gives 3; start {0}, goal {2, 3} */
#define OF_F(horizon) 70, 3, 4, horizon, FOUR(1), FOUR(12), 7, FOUR(1), FOUR(2), FOUR(1), 3, FOUR(2), FOUR(4), 3, FOUR(2), FOUR(8)
static const uint8_t F[] = {OF_F(3)}, F_NEAR[] = {OF_F(1)};
/* the steps 0: gives 0; 1: gives 1, takes 0; start empty, goal {0, 1}, horizon 2 */
static const uint8_t G[] = {70, 2, 2, 2, FOUR(0), FOUR(3), 2, FOUR(1), 6, FOUR(2), FOUR(1)};
/* an article without fields */
static const uint8_t BARE[] = {67, 1, 0, EIGHT(0), 0};
/* names are its first bytes; cut to one byte, the lengths 256 to 288 would be 0 to 32 */
static const uint8_t NAME[256 + KITCHEN_NAME_BYTES] = {'n'};
/* files that are refused */
static const uint8_t FORBIDDEN[] = {67, 1, 1, EIGHT(0), 16}, EMPTY_FIELD[] = {67, 1, 1, EIGHT(0), 1, EIGHT(0)};
static const uint8_t ABSENT[] = {67, 0, 1, EIGHT(2)}, LONG_NAME[] = {67, 1, 0, EIGHT(0), 4, KITCHEN_NAME_BYTES + 1};
static const uint8_t NO_NAME[] = {67, 1, 0, EIGHT(0), 4, KITCHEN_NAME_BYTES}, MANY[] = {67, KITCHEN_ARTICLES + 1, 0, EIGHT(0)};

static const uint8_t GROUPS[] = {0, 0, 1};
static uint64_t out[3];
static int faults;

enum { NINE = 9, MOST = 70, UNTOUCHED = 999 };
static uint8_t bytes[MOST];
static uint32_t words[MOST];
static uint64_t wide[MOST];

/* Buffers of nines, and words of `out` that no call returns. */
static void clear(void)
{
    for (int i = 0; i < MOST; i++)
        bytes[i] = NINE, words[i] = NINE, wide[i] = NINE;
    out[0] = out[1] = out[2] = UNTOUCHED;
}

/* What each buffer has to hold: this number of elements from the front, then zeros up to an index, and nines from there on. */
static int holds(const uint64_t *front, int count, int zeros, uint64_t element, int i)
{
    return element == (i < count ? front[i] : i < zeros ? 0 : NINE);
}

static int kept(const uint64_t *front, int count, int zeros, int which)
{
    for (int i = 0; i < MOST; i++) {
        int all = holds(front, which == 1 ? count : 0, which == 1 ? zeros : 0, bytes[i], i)
            && holds(front, which == 4 ? count : 0, which == 4 ? zeros : 0, words[i], i)
            && holds(front, which == 8 ? count : 0, which == 8 ? zeros : 0, wide[i], i);
        if (!all)
            return 0;
    }
    return 1;
}

/* The words of `out`. A call that has two leaves the third as it was. */
struct words {
    uint64_t first, second, third;
};

/* One call: what it returned, the words of `out`, and what the buffer whose elements have `which` bytes holds from the front. */
static void see(int line, uint32_t found, uint32_t status, struct words told, int which, const uint64_t *front, int count, int zeros)
{
    if (found == status && out[0] == told.first && out[1] == told.second && out[2] == told.third && kept(front, count, zeros, which))
        return;
    printf("tests/every_call.c:%d: returned %u, out %llu %llu %llu; expected %u, %llu %llu %llu, and buffers as the rules say\n", line,
           (unsigned)found, (unsigned long long)out[0], (unsigned long long)out[1], (unsigned long long)out[2], (unsigned)status,
           (unsigned long long)told.first, (unsigned long long)told.second, (unsigned long long)told.third);
    faults++;
}

#define NUMBERS(...) ((const uint64_t[]){__VA_ARGS__})
#define WORDS(...) ((struct words){__VA_ARGS__})
/* a call that fills the front of a buffer, one that touches none, and one that has three words of `out` */
#define FILLS(call, first, which, zeros, ...) \
    (clear(), see(__LINE__, call, KITCHEN_ANSWERED, WORDS(first, 0, UNTOUCHED), which, NUMBERS(__VA_ARGS__), (int)(sizeof NUMBERS(__VA_ARGS__) / sizeof(uint64_t)), zeros), seen++)
#define GIVES(call, status, first, second) (clear(), see(__LINE__, call, status, WORDS(first, second, UNTOUCHED), 0, NULL, 0, 0), seen++)
#define PRICES(call, status, first, total, tax) (clear(), see(__LINE__, call, status, WORDS(first, (uint64_t)(total), (uint64_t)(tax)), 0, NULL, 0, 0), seen++)

static int version(void)
{
    int seen = 0;
    out[0] = 0;
    if (kitchen_version() == KITCHEN_VERSION)
        seen++;
    else
        faults++;
    return seen;
}

static int partition(void)
{
    int seen = 0;
    FILLS(kitchen_partition(SLICE(A), bytes, 4, out), 0, 1, 0, 0, 0, 1);
    FILLS(kitchen_partition(SLICE(B), bytes, 3, out), 0, 1, 0, 0, 0, 1);
    FILLS(kitchen_partition(SLICE(A_NAMED), bytes, KITCHEN_ARTICLES, out), 0, 1, 0, 0, 0, 1);
    GIVES(kitchen_partition(SLICE(A), bytes, 2, out), KITCHEN_SHORT_BUFFER, 0, 0);
    GIVES(kitchen_partition(A, sizeof A - 1, bytes, 4, out), KITCHEN_ENDS_EARLY, 45, 0);
    GIVES(kitchen_partition(SLICE(A_LONGER), bytes, 4, out), KITCHEN_TRAILING_BYTES, 46, 0);
    GIVES(kitchen_partition(SLICE(MANY), bytes, MOST, out), KITCHEN_OVER_LIMIT, 1, 0);
    GIVES(kitchen_partition(SLICE(FORBIDDEN), bytes, MOST, out), KITCHEN_FORBIDDEN_BIT, 11, 0);
    GIVES(kitchen_partition(SLICE(EMPTY_FIELD), bytes, MOST, out), KITCHEN_EMPTY_FIELD, 12, 0);
    GIVES(kitchen_partition(SLICE(ABSENT), bytes, MOST, out), KITCHEN_ABSENT_MEMBER, 3, 0);
    GIVES(kitchen_partition(SLICE(LONG_NAME), bytes, MOST, out), KITCHEN_LONG_NAME, 12, 0);
    GIVES(kitchen_partition(SLICE(NO_NAME), bytes, MOST, out), KITCHEN_ENDS_EARLY, 13, 0);
    GIVES(kitchen_partition(SLICE(F), bytes, MOST, out), KITCHEN_WRONG_KIND, 0, 0);
    GIVES(kitchen_partition(NULL, 0, bytes, MOST, out), KITCHEN_WRONG_KIND, 0, 0);
    return seen;
}

static int pass(void)
{
    int seen = 0;
    GIVES(kitchen_pass(SLICE(B), SLICE(GROUPS), 7, 7, out), 0, 6, 3);
    GIVES(kitchen_pass(SLICE(B), SLICE(GROUPS), 7, 1, out), 0, 7, 1);
    GIVES(kitchen_pass(SLICE(B), SLICE(GROUPS), 1, 7, out), 0, 0, 1);
    GIVES(kitchen_pass(SLICE(B), SLICE(GROUPS), 0, 7, out), 0, 0, 0);
    GIVES(kitchen_pass(SLICE(B), SLICE(BYTES(0, 1, 2)), 7, 7, out), 0, 7, 4); /* each article in a group of its own */
    GIVES(kitchen_pass(SLICE(A), SLICE(GROUPS), 7, 3, out), 0, 7, 3);
    GIVES(kitchen_pass(SLICE(APART), SLICE(GROUPS), 3, 3, out), 0, 0, 1);
    GIVES(kitchen_pass(SLICE(APART), SLICE(GROUPS), 3, 1, out), 0, 1, 1);
    GIVES(kitchen_pass(SLICE(B), GROUPS, 2, 7, 7, out), KITCHEN_SHORT_BUFFER, 0, 0);
    GIVES(kitchen_pass(SLICE(B), SLICE(BYTES(0, 0, 0)), 7, 7, out), KITCHEN_FALSE_PARTITION, 2, 0);
    GIVES(kitchen_pass(SLICE(B), SLICE(GROUPS), 8, 7, out), KITCHEN_ABSENT_ARTICLE, 0, 0);
    GIVES(kitchen_pass(SLICE(B), SLICE(GROUPS), 7, 8, out), KITCHEN_WRONG_GOAL, 0, 0);
    return seen;
}

static int choose(void)
{
    int seen = 0;
    const uint64_t goals[] = {3, 3, 8};
    GIVES(kitchen_choose(SLICE(A), SLICE(GROUPS), goals, 1, 0, out), 0, 4, 0);
    GIVES(kitchen_choose(SLICE(A), SLICE(GROUPS), goals, 2, 5, out), 0, 5, 0);
    GIVES(kitchen_choose(SLICE(A), SLICE(GROUPS), NULL, 0, 6, out), 0, 6, 0);
    GIVES(kitchen_choose(SLICE(A), SLICE(GROUPS), goals, 1, 7, out), KITCHEN_NO_SELECTION, 1, 0);
    GIVES(kitchen_choose(SLICE(A), SLICE(GROUPS), goals, 2, 7, out), KITCHEN_NO_SELECTION, 2, 0);
    GIVES(kitchen_choose(SLICE(A), SLICE(GROUPS), NULL, 0, 7, out), KITCHEN_NO_SELECTION, 0, 0);
    GIVES(kitchen_choose(SLICE(A), SLICE(GROUPS), goals, 3, 0, out), KITCHEN_WRONG_GOAL, 2, 0);
    GIVES(kitchen_choose(SLICE(B), SLICE(GROUPS), NUMBERS(7), 1, 0, out), 0, 6, 1);
    GIVES(kitchen_choose(SLICE(APART), SLICE(GROUPS), NUMBERS(3), 1, 0, out), KITCHEN_NO_SELECTION, 0, 0);
    GIVES(kitchen_choose(SLICE(APART), SLICE(GROUPS), SLICE(NUMBERS(3, 1)), UINT64_MAX, out), KITCHEN_NO_SELECTION, 0, 0);
    GIVES(kitchen_choose(SLICE(APART), SLICE(GROUPS), SLICE(NUMBERS(1)), 0, out), KITCHEN_NO_SELECTION, 1, 0);
    GIVES(kitchen_choose(SLICE(APART), SLICE(GROUPS), SLICE(NUMBERS(1, 3)), 0, out), KITCHEN_NO_SELECTION, 1, 0);
    GIVES(kitchen_choose(SLICE(APART), SLICE(GROUPS), SLICE(NUMBERS(1, 2)), 0, out), KITCHEN_NO_SELECTION, 1, 0); /* the first pass strikes article 1 */
    GIVES(kitchen_choose(SLICE(APART), SLICE(GROUPS), SLICE(NUMBERS(1, 1, 2)), 0, out), KITCHEN_NO_SELECTION, 2, 0);
    GIVES(kitchen_choose(SLICE(APART), SLICE(GROUPS), SLICE(NUMBERS(1, 2, 1)), 0, out), KITCHEN_NO_SELECTION, 1, 0);
    GIVES(kitchen_choose(SLICE(APART), SLICE(GROUPS), NULL, 0, 0, out), KITCHEN_NO_SELECTION, 0, 0);
    GIVES(kitchen_choose(SLICE(BYTES(67, 0, 0, EIGHT(0))), NULL, 0, NULL, 0, 0, out), 0, 0, 0);
    return seen;
}

static int price(void)
{
    int seen = 0;
    PRICES(kitchen_price(SLICE(P), 0, out), 0, 5, -50, 0);
    PRICES(kitchen_price(SLICE(P), 99, out), 0, 5, -50, 0);
    PRICES(kitchen_price(SLICE(P), 100, out), 0, 5, -50, -1); /* half a cent, away from zero */
    PRICES(kitchen_price(SLICE(P), 1900, out), 0, 5, -50, -10);
    PRICES(kitchen_price(SLICE(P), KITCHEN_RATE, out), 0, 5, -50, -50);
    PRICES(kitchen_price(SLICE(A), 1900, out), 0, 4, 0, 0);
    PRICES(kitchen_price(SLICE(LOWEST), 5000, out), 0, 1, -2147483648LL, -1073741824LL);
    PRICES(kitchen_price(SLICE(HIGHEST), 5000, out), 0, 2, 2147483647LL, 1073741824LL); /* 1073741823.5 */
    PRICES(kitchen_price(SLICE(APART), 1900, out), KITCHEN_NO_SELECTION, 0, 0, 0);
    PRICES(kitchen_price(SLICE(APART), KITCHEN_RATE + 1, out), KITCHEN_HIGH_RATE, 0, 0, 0);
    PRICES(kitchen_price(SLICE(P), ((uint64_t)1 << 32) + 1, out), KITCHEN_HIGH_RATE, 0, 0, 0);
    PRICES(kitchen_price(SLICE(P), UINT64_MAX, out), KITCHEN_HIGH_RATE, 0, 0, 0);
    PRICES(kitchen_price(P, sizeof P - 1, UINT64_MAX, out), KITCHEN_ENDS_EARLY, sizeof P - 1, 0, 0);
    PRICES(kitchen_price(SLICE(P_ZERO), UINT64_MAX, out), KITCHEN_EMPTY_FIELD, sizeof P - 4, 0, 0);
    PRICES(kitchen_price(SLICE(FORBIDDEN), UINT64_MAX, out), KITCHEN_FORBIDDEN_BIT, 11, 0, 0);
    PRICES(kitchen_price(SLICE(F), 1900, out), KITCHEN_WRONG_KIND, 0, 0, 0);
    PRICES(kitchen_price(NULL, 0, 1900, out), KITCHEN_WRONG_KIND, 0, 0, 0);
    PRICES(kitchen_price(SLICE(BYTES(67, 0, 0, EIGHT(0))), 1900, out), 0, 0, 0, 0);
    return seen;
}

/* the entries of a fair without a selection */
#define OUTSIDE KITCHEN_ORDER_OUTSIDE_FILE, 0, 0
#define NONE KITCHEN_NO_SELECTION, 0, 0

static int fair(void)
{
    int seen = 0;
    const uint64_t orders[] = {3, 0, 1, 2, 4, 3};
    FILLS(kitchen_fair(SLICE(A), SLICE(orders), wide, 18, out), 0, 8, 0, 0, 4, 0, 0, 0, 0, 0, 1, 0, 0, 2, 0, OUTSIDE, 0, 4, 0);
    FILLS(kitchen_fair(SLICE(A), orders, 1, wide, MOST, out), 0, 8, 0, 0, 4, 0);
    FILLS(kitchen_fair(SLICE(A), SLICE(NUMBERS(7, (uint64_t)1 << 63, UINT64_MAX)), wide, 11, out), 0, 8, 0, OUTSIDE, OUTSIDE, OUTSIDE);
    FILLS(kitchen_fair(SLICE(P), SLICE(NUMBERS(3, 2)), wide, 6, out), 0, 8, 0, 0, 4, 0, 0, 2, 0); /* prices play no part */
    FILLS(kitchen_fair(SLICE(B), SLICE(NUMBERS(7, 2, 5, 8)), wide, 14, out), 0, 8, 0, 0, 6, 1, 0, 2, 1, 0, 5, 0, OUTSIDE);
    FILLS(kitchen_fair(SLICE(B_FEW), SLICE(NUMBERS(7, 7, 1)), wide, 9, out), 0, 8, 0, 0, 6, 1, 0, 6, 1, 0, 1, 0);
    FILLS(kitchen_fair(SLICE(APART), SLICE(NUMBERS(1, 3, 2, 3)), wide, 12, out), 0, 8, 0, 0, 1, 2, NONE, 0, 2, 1, NONE);
    FILLS(kitchen_fair(SLICE(UNCARRIED), SLICE(NUMBERS(3, 1)), wide, 6, out), 0, 8, 0, NONE, 0, 1, 0); /* where the choice has 14 at 1 */
    FILLS(kitchen_fair(SLICE(BARE), SLICE(NUMBERS(0, 1)), wide, 8, out), 0, 8, 0, 0, 0, 0, OUTSIDE);
    GIVES(kitchen_fair(SLICE(A), NULL, 0, wide, MOST, out), 0, 0, 0);
    GIVES(kitchen_fair(SLICE(A), NULL, 0, NULL, 0, out), 0, 0, 0);
    GIVES(kitchen_fair(SLICE(A), SLICE(orders), wide, 17, out), KITCHEN_SHORT_BUFFER, 0, 0);
    GIVES(kitchen_fair(SLICE(A), orders, 1, NULL, 0, out), KITCHEN_SHORT_BUFFER, 0, 0);
    GIVES(kitchen_fair(A, sizeof A - 1, orders, 1, wide, 2, out), KITCHEN_ENDS_EARLY, 45, 0);
    GIVES(kitchen_fair(SLICE(A_LONGER), orders, 1, wide, MOST, out), KITCHEN_TRAILING_BYTES, 46, 0);
    GIVES(kitchen_fair(SLICE(ABSENT), orders, 1, wide, MOST, out), KITCHEN_ABSENT_MEMBER, 3, 0); /* the file's own order is tested, too */
    GIVES(kitchen_fair(SLICE(F), NULL, 0, wide, MOST, out), KITCHEN_WRONG_KIND, 0, 0);
    GIVES(kitchen_fair(NULL, 0, orders, 1, wide, MOST, out), KITCHEN_WRONG_KIND, 0, 0);
    return seen;
}

static int fact_layer(void)
{
    int seen = 0;
    FILLS(kitchen_fact_layer(SLICE(G), 1, words, KITCHEN_FACT_WORDS + 1, out), 3, 4, KITCHEN_FACT_WORDS, 2, 1);
    FILLS(kitchen_fact_layer(SLICE(G), 2, words, KITCHEN_FACT_WORDS, out), 3, 4, KITCHEN_FACT_WORDS, 0, 0);
    FILLS(kitchen_fact_layer(SLICE(F), 0, words, KITCHEN_FACT_WORDS, out), 1, 4, KITCHEN_FACT_WORDS, 0);
    GIVES(kitchen_fact_layer(SLICE(G), 3, words, KITCHEN_FACT_WORDS, out), KITCHEN_OUT_OF_RANGE, 0, 0);
    GIVES(kitchen_fact_layer(SLICE(G), 1, words, KITCHEN_FACT_WORDS - 1, out), KITCHEN_SHORT_BUFFER, 0, 0);
    return seen;
}

static int round_layer(void)
{
    int seen = 0;
    const uint64_t step = (uint64_t)1 << 32;
    FILLS(kitchen_round_layer(SLICE(F), 1, wide, KITCHEN_ROUND_WORDS, out), 1 + step, 8, KITCHEN_ROUND_WORDS, [0] = step, [32] = 1);
    FILLS(kitchen_round_layer(SLICE(G), 1, wide, KITCHEN_ROUND_WORDS + 1, out), 3 * step, 8, KITCHEN_ROUND_WORDS, [32] = 2 * step, step);
    GIVES(kitchen_round_layer(SLICE(G), 0, wide, KITCHEN_ROUND_WORDS, out), KITCHEN_OUT_OF_RANGE, 0, 0);
    GIVES(kitchen_round_layer(SLICE(G), 3, wide, KITCHEN_ROUND_WORDS, out), KITCHEN_ABSENT_LAYER, 0, 0); /* by its older name */
    GIVES(kitchen_round_layer(SLICE(G), 1, wide, KITCHEN_ROUND_WORDS - 1, out), KITCHEN_SHORT_BUFFER, 0, 0);
    return seen;
}

static int plan(void)
{
    int seen = 0;
    FILLS(kitchen_plan(SLICE(F), words, 3, out), 2, 4, 0, 1, 6);
    FILLS(kitchen_plan(SLICE(G), words, KITCHEN_ROUNDS, out), 2, 4, 0, 2, 1);
    GIVES(kitchen_plan(SLICE(F_NEAR), words, 3, out), KITCHEN_NO_PLAN, 0, 0);
    GIVES(kitchen_plan(SLICE(F), words, 2, out), KITCHEN_SHORT_BUFFER, 0, 0);
    GIVES(kitchen_plan(SLICE(A), words, 3, out), KITCHEN_WRONG_KIND, 0, 0);
    return seen;
}

static int name(void)
{
    int seen = 0;
    GIVES(kitchen_name(SLICE(A_NAMED), 2, out), 0, 47, 2);
    GIVES(kitchen_name(SLICE(A_NAMED), 1, out), 0, 0, 0);
    GIVES(kitchen_name(SLICE(A_NAMED), 3, out), 0, 0, 0);
    GIVES(kitchen_name(A_NAMED, sizeof A_NAMED - 1, 2, out), 0, 0, 0);
    return seen;
}

static int find(void)
{
    int seen = 0;
    GIVES(kitchen_find(SLICE(A_NAMED), SLICE(BYTES('a', 'b')), out), 0, 2, 0);
    GIVES(kitchen_find(SLICE(A_NAMED), SLICE(BYTES('a')), out), KITCHEN_NO_NAME, 0, 0);
    GIVES(kitchen_find(SLICE(A_NAMED), NULL, 0, out), KITCHEN_NO_NAME, 0, 0);
    GIVES(kitchen_find(A_NAMED, sizeof A_NAMED - 1, SLICE(BYTES('a', 'b')), out), KITCHEN_ENDS_EARLY, 48, 0);
    GIVES(kitchen_find(SLICE(NAMED), SLICE(BYTES(BUFETT(AS_ONE))), out), 0, 0, 0);
    GIVES(kitchen_find(SLICE(NAMED), SLICE(BYTES(BUFETT(AS_TWO))), out), 0, 0, 0); /* the lowest, though 5 has these bytes */
    GIVES(kitchen_find(SLICE(NAMED), SLICE(BYTES('T', AS_ONE, 'r')), out), 0, 1, 0);
    GIVES(kitchen_find(SLICE(NAMED_STEP), SLICE(BYTES(BUFETT(AS_ONE))), out), 0, 0, 0);
    GIVES(kitchen_find(SLICE(NAMED), SLICE(BYTES('a', 0xCC, 0xA3, 0xCC, 0x81)), out), 0, 2, 0);
    GIVES(kitchen_find(SLICE(NAMED), SLICE(BYTES(0xC3, 0xA1, 0xCC, 0xA3)), out), 0, 2, 0);
    GIVES(kitchen_find(SLICE(NAMED), SLICE(BYTES('a', 0xCC, 0x80, 0xCC, 0x81)), out), KITCHEN_NO_NAME, 0, 0); /* marks of one class */
    GIVES(kitchen_find(SLICE(NAMED), SLICE(BYTES(0xC3, 0xA1, 0xCC, 0x80)), out), 0, 3, 0);
    GIVES(kitchen_find(SLICE(NAMED), SLICE(BYTES(0xC3, 0x85)), out), KITCHEN_NO_NAME, 0, 0); /* U+00C5 is covered, and U+212B is not */
    GIVES(kitchen_find(SLICE(NAMED), SLICE(BYTES(0xE2, 0x84, 0xAB)), out), 0, 4, 0);
    GIVES(kitchen_find(SLICE(NAMED), SLICE(BYTES('u', 0xCC)), out), 0, 6, 0);
    GIVES(kitchen_find(SLICE(NAMED), SLICE(BYTES('u')), out), KITCHEN_NO_NAME, 0, 0);
    GIVES(kitchen_find(SLICE(NAMED), SLICE(BYTES(FOUR_TIMES(FOUR_TIMES(0xCC, 0x88, 0xCC, 0x81)))), out), 0, 7, 0); /* by 64 bytes */
    GIVES(kitchen_find(SLICE(NAMED), SLICE(BYTES(FOUR_TIMES(FOUR_TIMES(0xCC, 0x88, 0xCC, 0x81)), 'a')), out), KITCHEN_NO_NAME, 0, 0);
    GIVES(kitchen_find(SLICE(NAMED), NULL, 0, out), KITCHEN_NO_NAME, 0, 0);
    return seen;
}

static int compare(void)
{
    int seen = 0;
    GIVES(kitchen_compare(SLICE(A), SLICE(A_NAMED), out), 0, 1, 0);
    GIVES(kitchen_compare(SLICE(A), SLICE(B), out), 0, 0, 0);
    GIVES(kitchen_compare(SLICE(A), SLICE(P), out), 0, 1, 0);
    GIVES(kitchen_compare(A, sizeof A - 1, SLICE(F), out), KITCHEN_ENDS_EARLY, 45, 0);
    GIVES(kitchen_compare(SLICE(A), SLICE(F), out), KITCHEN_WRONG_KIND, 0, 0);
    return seen;
}

static int save_order(void)
{
    int seen = 0;
    FILLS(kitchen_save_order(SLICE(A), 1, bytes, 46, out), 46, 1, 0, A_WITH(1, ONE, TWO));
    FILLS(kitchen_save_order(SLICE(A), 0, bytes, MOST, out), 46, 1, 0, A_WITH(0, ONE, TWO));
    FILLS(kitchen_save_order(SLICE(A_NAMED), 3, bytes, 49, out), 49, 1, 0, A_WITH(3, ONE, TWO_NAMED));
    FILLS(kitchen_save_order(SLICE(P), 1, bytes, 58, out), 58, 1, 0, P_WITH(1, 9, EIGHT(3), FOUR(100)));
    GIVES(kitchen_save_order(SLICE(A), 1, bytes, 45, out), KITCHEN_SHORT_BUFFER, 0, 0);
    GIVES(kitchen_save_order(SLICE(A), 4, NULL, 0, out), KITCHEN_ABSENT_MEMBER, 3, 0);
    GIVES(kitchen_save_order(A, sizeof A - 1, 4, bytes, MOST, out), KITCHEN_ENDS_EARLY, 45, 0);
    GIVES(kitchen_save_order(SLICE(F), 0, bytes, MOST, out), KITCHEN_WRONG_KIND, 0, 0);
    return seen;
}

static int save_wishes(void)
{
    int seen = 0;
    FILLS(kitchen_save_wishes(SLICE(A), 1, 3, bytes, 47, out), 46, 1, 0, A_WITH(3, 3, EIGHT(3), EIGHT(1), TWO));
    FILLS(kitchen_save_wishes(SLICE(A), 1, 0, bytes, 38, out), 38, 1, 0, A_WITH(3, 2, EIGHT(1), TWO));
    GIVES(kitchen_save_wishes(SLICE(A), 1, 0, bytes, 37, out), KITCHEN_SHORT_BUFFER, 0, 0);
    GIVES(kitchen_save_wishes(SLICE(A), 1, 4, bytes, MOST, out), KITCHEN_ABSENT_MEMBER, 21, 0);
    GIVES(kitchen_save_wishes(SLICE(A), 3, 4, NULL, 0, out), KITCHEN_OUT_OF_RANGE, 0, 0);
    GIVES(kitchen_save_wishes(SLICE(A), ((uint64_t)1 << 32) + 1, 1, bytes, MOST, out), KITCHEN_OUT_OF_RANGE, 0, 0);
    GIVES(kitchen_save_wishes(SLICE(A_LONGER), 3, 4, bytes, MOST, out), KITCHEN_TRAILING_BYTES, 46, 0);
    GIVES(kitchen_save_wishes(SLICE(F), 0, 1, bytes, MOST, out), KITCHEN_WRONG_KIND, 0, 0);
    return seen;
}

static int save_clashes(void)
{
    int seen = 0;
    FILLS(kitchen_save_clashes(SLICE(A), 1, 0, bytes, 38, out), 38, 1, 0, A_WITH(3, 1, EIGHT(2), TWO));
    FILLS(kitchen_save_clashes(SLICE(A), 2, 3, bytes, 54, out), 54, 1, 0, A_WITH(3, ONE, 3, EIGHT(3), EIGHT(3)));
    GIVES(kitchen_save_clashes(SLICE(A), 2, 3, bytes, 53, out), KITCHEN_SHORT_BUFFER, 0, 0);
    GIVES(kitchen_save_clashes(SLICE(A), 1, 2, bytes, MOST, out), KITCHEN_ABSENT_MEMBER, 29, 0);
    GIVES(kitchen_save_clashes(SLICE(A), 1, 4, bytes, MOST, out), KITCHEN_ABSENT_MEMBER, 29, 0);
    GIVES(kitchen_save_clashes(SLICE(BARE), 0, 1, bytes, MOST, out), KITCHEN_ABSENT_MEMBER, 12, 0);
    GIVES(kitchen_save_clashes(SLICE(A), 3, 1, bytes, MOST, out), KITCHEN_OUT_OF_RANGE, 0, 0);
    GIVES(kitchen_save_clashes(SLICE(F), 0, 0, bytes, MOST, out), KITCHEN_WRONG_KIND, 0, 0);
    return seen;
}

static int save_name(void)
{
    int seen = 0;
    FILLS(kitchen_save_name(SLICE(A), 2, SLICE(BYTES('a', 'b')), bytes, 49, out), 49, 1, 0, A_WITH(3, ONE, TWO_NAMED));
    FILLS(kitchen_save_name(SLICE(A_NAMED), 2, NULL, 0, bytes, 46, out), 46, 1, 0, OF_A);
    FILLS(kitchen_save_name(SLICE(P), 2, SLICE(BYTES('a', 'b')), bytes, 61, out), 61, 1, 0, P_WITH(3, 13, EIGHT(3), 2, 'a', 'b', FOUR(100)));
    FILLS(kitchen_save_name(SLICE(BARE), 0, NAME, KITCHEN_NAME_BYTES, bytes, 45, out), 45, 1, 45, 67, 1, 0, EIGHT(0), 4, 32, 'n');
    GIVES(kitchen_save_name(SLICE(A), 2, SLICE(BYTES('a', 'b')), bytes, 48, out), KITCHEN_SHORT_BUFFER, 0, 0);
    GIVES(kitchen_save_name(SLICE(A), 1, NAME, KITCHEN_NAME_BYTES + 1, bytes, MOST, out), KITCHEN_LONG_NAME, 37, 0);
    GIVES(kitchen_save_name(SLICE(A), 1, NAME, 256, bytes, MOST, out), KITCHEN_LONG_NAME, 37, 0);
    GIVES(kitchen_save_name(SLICE(A), 1, NAME, 257, bytes, MOST, out), KITCHEN_LONG_NAME, 37, 0);
    GIVES(kitchen_save_name(SLICE(A_NAMED), 2, SLICE(NAME), NULL, 0, out), KITCHEN_LONG_NAME, 46, 0);
    GIVES(kitchen_save_name(SLICE(A), 3, SLICE(NAME), NULL, 0, out), KITCHEN_OUT_OF_RANGE, 0, 0);
    GIVES(kitchen_save_name(SLICE(F), 0, NULL, 0, bytes, MOST, out), KITCHEN_WRONG_KIND, 0, 0);
    return seen;
}

int main(void)
{
    printf("kitchen_version: %d, ", version());
    printf("kitchen_partition: %d, ", partition());
    printf("kitchen_pass: %d, ", pass());
    printf("kitchen_choose: %d, ", choose());
    printf("kitchen_price: %d, ", price());
    printf("kitchen_fair: %d, ", fair());
    printf("kitchen_fact_layer: %d, ", fact_layer());
    printf("kitchen_round_layer: %d, ", round_layer());
    printf("kitchen_plan: %d, ", plan());
    printf("kitchen_name: %d, ", name());
    printf("kitchen_find: %d, ", find());
    printf("kitchen_compare: %d, ", compare());
    printf("kitchen_save_order: %d, ", save_order());
    printf("kitchen_save_wishes: %d, ", save_wishes());
    printf("kitchen_save_clashes: %d, ", save_clashes());
    printf("kitchen_save_name: %d\n", save_name());
    return faults ? 1 : 0;
}
