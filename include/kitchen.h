/* Choice and fitting for cabinet shops: the open calls, for C and for all that can call C.
 *
 * docs/RULES.md says how a job file is laid out and what each call answers; every function here is proved to
 * answer just that, for every input. `tools/job write` makes a job file from a text. The library is built by
 *
 *     tools/library
 *
 * which makes target/lib/libkitchen.a, an archive to link, and target/lib/libkitchen.so, a shared library for languages
 * that load one; its soname is libkitchen.so.7. `make install` puts both and this header where your system has such
 * things, and in the folder that `make dist` packs both are in lib/.
 *
 * A program in C that chooses, from a job file on standard input, is built by
 * `cc -I include first.c target/lib/libkitchen.a -o first` and is tried by
 * `tools/job write jobs/kitchen.txt | ./first`. Its status is 3 if there is no such kitchen, and 1 if the file is
 * refused:
 *
 *     #include "kitchen.h"
 *     #include <stdio.h>
 *     int main(void)
 *     {
 *         uint8_t file[KITCHEN_LONGEST + 1], groups[KITCHEN_ARTICLES];
 *         uint64_t out[2];
 *         size_t len = fread(file, 1, sizeof file, stdin);
 *         uint32_t reason = kitchen_partition(file, len, groups, KITCHEN_ARTICLES, out);
 *         if (reason == 0)
 *             reason = kitchen_choose(file, len, groups, KITCHEN_ARTICLES, NULL, 0, 0, out);
 *         if (reason == KITCHEN_NO_SELECTION) {
 *             printf("no such kitchen\n");
 *             return 3;
 *         }
 *         if (reason) {
 *             printf("refused %u at %u\n", (unsigned)reason, (unsigned)out[0]);
 *             return 1;
 *         }
 *         for (int i = 0; i < KITCHEN_ARTICLES; i++)
 *             if (out[0] >> i & 1)
 *                 printf("article %d\n", i);
 *         return 0;
 *     }
 *
 * The same in Python, by `tools/job write jobs/kitchen.txt | python3 first.py`:
 *
 *     import ctypes, sys
 *     library, size, number = ctypes.CDLL("target/lib/libkitchen.so"), ctypes.c_size_t, ctypes.c_uint64
 *     file, groups, out = sys.stdin.buffer.read(), (ctypes.c_uint8 * 64)(), (number * 2)()
 *     reason = library.kitchen_partition(file, size(len(file)), groups, size(64), out)
 *     if reason == 0:
 *         reason = library.kitchen_choose(file, size(len(file)), groups, size(64), None, size(0), number(0), out)
 *     if reason == 14:
 *         print("no such kitchen")
 *         sys.exit(3)
 *     if reason:
 *         print(f"refused {reason} at {out[0]}")
 *         sys.exit(1)
 *     print(*(f"article {i}\n" for i in range(64) if out[0] >> i & 1), sep="", end="")
 *
 * host/ has longer examples, with names and plans.
 *
 * Answers. Each of the fifteen calls returns 0 for an answer, and otherwise the number of the reason why it was turned
 * down. 14, 15 and 16 are answers as well, in the form of a refusal: the input is in order, and there is no such
 * selection, plan or name. All others say that the input is at fault; `tools/job explain` puts them into words. No call
 * returns 18: it is a status, which kitchen_fair writes beside an order. A call always writes all words of `out`, two of
 * them, and three for kitchen_price: the values of the answer, named beside each function, or the place of the refusal
 * and zeros; unused words are 0. `out` must not be null. It is the return value and no lent buffer: reason 10 never
 * speaks of it.
 *
 * Prices. An article of a choice file may have a price in cents, of 32 bits and with a sign; a trade-in has one below 0.
 * It is a part of the job that a file states, so the calls that save keep it. Only kitchen_price goes by prices.
 *
 * Arguments. A slice is a pointer and a length, in elements. The pointer of an empty slice may be null. Buffers must
 * not overlap each other, another argument or `out`; so a file is saved into a buffer of its own. A refusal writes to no
 * buffer; elements after those that an answer fills keep what they held. Sets are numbers by their bits: bit i is 1 if i
 * is a member. `groups` must have at least a byte for each article of the file; KITCHEN_ARTICLES bytes always do, and
 * more may be lent. No file that is in order is longer than KITCHEN_LONGEST bytes. A program that reads one byte more of
 * a file needs no more of it: a longer file is refused, and by these bytes in the same way.
 *
 * Threads. Nothing here allocates, blocks, or keeps a pointer; calls may run in several threads at once. A thread that
 * plans MUST have a stack of 1 MB, within which our tests run the planner; the largest call that we measured takes
 * 266,408 bytes. With 128 KB the sample jobs/fitting.txt crashes. Of the other calls kitchen_price takes the most stack,
 * 90,344 bytes, as measured on 64 articles that neither clash nor share a wish. Those that save take 33,912 bytes, as
 * measured on the longest choice file, and kitchen_fair took 15,960 bytes at most in our bench. These figures, and those
 * on time below, are of a library that an older kit built; in a run of the bench with today's, prices took up to a
 * twentieth more of the stack, and plans no more.
 *
 * Time. No call can be interrupted, and none has a limit of time. In our bench a choice takes some thousandths of a
 * millisecond, and a plan mostly some hundredths to some tenths of one; the hardest plans in it take about a second, and
 * one that is not in it takes the same search without proofs some 25 s. A price takes some hundredths of a millisecond to
 * some milliseconds, and on the worst jobs that were found about a quarter of a second. No bound is promised: all three
 * problems are hard. If you must not wait, plan and price in a process of its own, which you can end. A fair makes a
 * choice for each of its orders; a long list may be handed over in shares, since no call depends on another.
 */
#ifndef KITCHEN_H
#define KITCHEN_H

/* Goes up whenever a declaration or a number below changes, the meaning of a word of `out`, or what a call answers.
 * kitchen_version() tells the number of the library that was built. */
#define KITCHEN_VERSION 7

#include <stddef.h>
#include <stdint.h>

#ifdef __cplusplus
extern "C" {
#endif

/* What a call returns: 0, or a reason by its number in docs/RULES.md, "Reasons to turn a call down". */
enum {
    KITCHEN_ANSWERED = 0,
    KITCHEN_WRONG_KIND = 1,         /* the file is empty, or of a kind that the call does not take */
    KITCHEN_ENDS_EARLY = 2,         /* the file ends before an item is complete */
    KITCHEN_OVER_LIMIT = 3,         /* a count or the horizon exceeds its limit */
    KITCHEN_FORBIDDEN_BIT = 4,      /* a bit map has a bit that must be 0 */
    KITCHEN_EMPTY_FIELD = 5,        /* a record's field is present and zero, or a name has length 0 */
    KITCHEN_ABSENT_MEMBER = 6,      /* a set has a member that the file lacks, or a clash is not with a lower article */
    KITCHEN_LONG_NAME = 7,          /* a name is longer than 32 bytes */
    KITCHEN_TRAILING_BYTES = 8,     /* something follows the last record */
    KITCHEN_OUT_OF_RANGE = 9,       /* a layer number is out of range, or there is no such article to change */
    KITCHEN_SHORT_BUFFER = 10,      /* a lent buffer is too short */
    KITCHEN_FALSE_PARTITION = 11,   /* a group byte is not below n, or articles that do not clash are in one group */
    KITCHEN_ABSENT_ARTICLE = 12,    /* the live set has an article that the file lacks */
    KITCHEN_WRONG_GOAL = 13,        /* a projection goal is empty, or has a wish that the order lacks */
    /* answers to input that is in order */
    KITCHEN_NO_SELECTION = 14,      /* there is no selection whose number is the floor or greater */
    KITCHEN_NO_PLAN = 15,           /* there is no plan whose count of rounds is the horizon or less */
    KITCHEN_NO_NAME = 16,           /* that name belongs to no article and to no step */
    /* and a fault of an argument again */
    KITCHEN_HIGH_RATE = 17,         /* a tax rate is above 10,000 hundredths of a percent */
    /* and a status beside an order, which no call returns */
    KITCHEN_ORDER_OUTSIDE_FILE = 18 /* an order of a fair names a wish that the file lacks */
};
#define KITCHEN_ABSENT_LAYER KITCHEN_OUT_OF_RANGE /* its name up to version 2 */

/* The limits of files and buffers. */
enum {
    KITCHEN_ARTICLES = 64,          /* of a choice file, and the bytes of `groups` that always do */
    KITCHEN_WISHES = 64,            /* of a choice file */
    KITCHEN_STEPS = 32,             /* of a fitting file */
    KITCHEN_FACTS = 32,             /* of a fitting file */
    KITCHEN_ROUNDS = 16,            /* the highest horizon, and the words of `rounds` that always do */
    KITCHEN_NAME_BYTES = 32,        /* of a name */
    KITCHEN_RATE = 10000,           /* the highest tax rate, in hundredths of a percent */
    KITCHEN_FACT_WORDS = 32,        /* the mutex words of a fact layer */
    KITCHEN_ROUND_WORDS = 64,       /* the mutex words of a round layer */
    KITCHEN_ENTRY_WORDS = 3,        /* the words of an entry of a fair */
    KITCHEN_LONGEST_CHOICE = 3467,  /* no choice file that is in order has more bytes */
    KITCHEN_LONGEST_FITTING = 1484, /* no fitting file that is in order has more bytes */
    KITCHEN_LONGEST = 3467          /* the greater of the two */
};

/* The number of the interface that was built: KITCHEN_VERSION, if the header belongs to the library. */
uint32_t kitchen_version(void);

/* Our own partition: the group of each article, in its byte. Needs a byte for each article.
 * out: 0, 0 */
uint32_t kitchen_partition(const uint8_t *file, size_t file_len, uint8_t *groups, size_t groups_len, uint64_t out[2]);

/* A pass of the filter, by the groups lent, for one projection goal. Live articles, no two of which clash, never carry
 * more wishes of the goal together than the sum says. If the sum is below the count of the goal's wishes, every
 * selection has an article that is not live here. The sum is never above 4,096.
 * out: what it leaves live, the sum of the contributions by which it was made */
uint32_t kitchen_pass(const uint8_t *file, size_t file_len, const uint8_t *groups, size_t groups_len, uint64_t live,
                      uint64_t goal, uint64_t out[2]);

/* The smallest selection at or above the floor, after a pass for each goal in turn. Smallest is its number, the sum of
 * 2^i over its articles i, and not the count of them: a selection without the last articles of the file goes before one
 * with them, so what should be preferred comes first. 14 is "no selection"; out[0] is then the index of the first goal
 * that falls short, which is one whose pass has a sum below the count of its wishes, and goals_len if none does. So if
 * out[0] < goals_len, there is no selection at all, not even below the floor. If out[0] == goals_len, no sum tells why.
 * out: the selection, the set aside */
uint32_t kitchen_choose(const uint8_t *file, size_t file_len, const uint8_t *groups, size_t groups_len,
                        const uint64_t *goals, size_t goals_len, uint64_t floor, uint64_t out[2]);

/* The cheapest selection; if several cost the same, the smallest of them. Its total is the sum of the prices of its
 * articles, of which an absent one is 0; what lowers the total is taken, even if no wish asks for it. The rate is in
 * hundredths of a percent, so 1900 is 19 %. The tax is the total times the rate, divided by 10,000 and rounded to a
 * whole cent; half a cent goes away from zero, so 0.5 is 1 and -0.5 is -1. Total and tax are in two's complement:
 *
 *     uint64_t priced[3];
 *     if (kitchen_price(file, len, rate, priced) == 0)
 *         printf("%" PRId64 " and %" PRId64 "\n", (int64_t)priced[1], (int64_t)priced[2]);
 *
 * The file is tested first, then the rate: one above KITCHEN_RATE is 17, whether there is a selection or not. 14 is "no
 * selection", and its place is always 0 here. There are no groups, no goals and no floor.
 * out: the selection, the total, the tax */
uint32_t kitchen_price(const uint8_t *file, size_t file_len, uint64_t rate, uint64_t out[3]);

/* The orders of a trade fair together: the file is read once, as a catalogue, and a choice is made for each order of the
 * list in place of the file's own, which plays no part. Any list will do, also one with the same order twice. Each order
 * has an entry of KITCHEN_ENTRY_WORDS words, one entry after the other: its status, its selection, its set aside. Status
 * 0 is a selection, and the two sets are those that kitchen_choose answers on the file with that order: by our own
 * partition, with the order as the only goal, or no goal if it is 0, and with the floor 0. Otherwise both sets are 0: 14
 * is "no selection", without the place that kitchen_choose has for it, and 18 is an order with a wish that the file
 * lacks. There is no other status, and no order turns the call down:
 *
 *     uint64_t orders[2] = {3, 4}, words[2 * KITCHEN_ENTRY_WORDS];
 *     if (kitchen_fair(file, len, orders, 2, words, 2 * KITCHEN_ENTRY_WORDS, out) == 0)
 *         for (int i = 0; i < 2; i++)
 *             printf("status %d, selection %" PRIu64 "\n", (int)words[3 * i], words[3 * i + 1]);
 *
 * Needs KITCHEN_ENTRY_WORDS words for each order, and none if there is no order; fewer are 10, which is tested after the
 * file.
 * out: 0, 0 */
uint32_t kitchen_fair(const uint8_t *file, size_t file_len, const uint64_t *orders, size_t orders_len, uint64_t *words,
                      size_t words_len, uint64_t out[2]);

/* Fact layer `layer`, 0 to the horizon, with the mutex words of 32 facts. Needs 32 words.
 * out: the facts, 0 */
uint32_t kitchen_fact_layer(const uint8_t *file, size_t file_len, uint64_t layer, uint32_t *mutexes,
                            size_t mutexes_len, uint64_t out[2]);

/* Round layer `layer`, 1 to the horizon, with the mutex words of 64 vertices. Needs 64 words.
 * out: the vertices, 0 */
uint32_t kitchen_round_layer(const uint8_t *file, size_t file_len, uint64_t layer, uint64_t *mutexes,
                             size_t mutexes_len, uint64_t out[2]);

/* A plan with as few rounds as can be; its rounds, in order, each as a set of steps. Needs as many words as the
 * horizon has rounds. 15 is "no plan".
 * out: the count of rounds, 0 */
uint32_t kitchen_plan(const uint8_t *file, size_t file_len, uint32_t *rounds, size_t rounds_len, uint64_t out[2]);

/* Where the name of an article or step is in the file. Returns 0 always.
 * out: its start, its length; 0, 0 if the file is refused, lacks that number, or has no name for it */
uint32_t kitchen_name(const uint8_t *file, size_t file_len, uint64_t number, uint64_t out[2]);

/* The lowest article or step with this name, or with an equal one: the same bytes, or the same text typed in another way
 * (both are UTF-8, with no characters but those below U+0180 and from U+0300 to U+036F, and canonically equivalent). Any
 * other name is found by its own bytes only, and the empty one nowhere; a name may have any length. 16 is "none has it".
 * out: its number, 0 */
uint32_t kitchen_find(const uint8_t *file, size_t file_len, const uint8_t *name, size_t name_len, uint64_t out[2]);

/* Whether two choice files are alike: all but their names and prices agrees.
 * out: 1 if they are and 0 if not, 0 */
uint32_t kitchen_compare(const uint8_t *first, size_t first_len, const uint8_t *second, size_t second_len,
                         uint64_t out[2]);

/* Saves a choice file with another order, which may be 0: the new file is written to the front of `to`, and all else in
 * it is as in the old file. Needs as many bytes as the new file has; KITCHEN_LONGEST_CHOICE bytes always do. 10 does not
 * tell how many were needed:
 *
 *     uint8_t to[KITCHEN_LONGEST_CHOICE];
 *     if (kitchen_save_order(file, len, order, to, sizeof to, out) == 0)
 *         fwrite(to, 1, (size_t)out[0], saved);
 *
 * All four calls that save test the old file, then for 9, then the new file, then for 10. So 6 and 7 may be faults of
 * the old file, or of what is to be saved: if kitchen_partition takes the old file, they are the latter, and the place
 * counts the bytes of the new file. For an order that is 6 at 3.
 * out: the new file's length, 0 */
uint32_t kitchen_save_order(const uint8_t *file, size_t file_len, uint64_t order, uint8_t *to, size_t to_len,
                            uint64_t out[2]);

/* The same with other wishes of an article, by its number; 0 leaves the field out. 9 is "no such article". Needs as
 * many bytes as the new file has.
 * out: the new file's length, 0 */
uint32_t kitchen_save_wishes(const uint8_t *file, size_t file_len, uint64_t article, uint64_t wishes, uint8_t *to,
                             size_t to_len, uint64_t out[2]);

/* The same with other clashes of an article; 0 leaves the field out. They are with lower articles only: to change one
 * with a higher article, change the clashes of that one. 9 is "no such article". Needs as many bytes as the new file
 * has.
 * out: the new file's length, 0 */
uint32_t kitchen_save_clashes(const uint8_t *file, size_t file_len, uint64_t article, uint64_t clashes, uint8_t *to,
                              size_t to_len, uint64_t out[2]);

/* The same with another name of an article; a name of no bytes leaves the field out. 9 is "no such article". A name of
 * any length may be given; one of over KITCHEN_NAME_BYTES bytes is 7. Needs as many bytes as the new file has.
 * out: the new file's length, 0 */
uint32_t kitchen_save_name(const uint8_t *file, size_t file_len, uint64_t article, const uint8_t *name, size_t name_len,
                           uint8_t *to, size_t to_len, uint64_t out[2]);

#ifdef __cplusplus
}
#endif

#endif
