/*
 * Calls each function of the library, granted and refused, and compares each
 * field of each answer and all memory that was lent, so that no two fields and
 * no two parameters can be exchanged: a contract does not say how they lie.
 * What is wanted was found by hand from docs/RULES.md, docs/FORMATS.md and
 * docs/REFUSALS.md, and values that could be taken for one another differ.
 *
 * C99, and C++ from C++11 on.
 */
#include "cunaweho.h"
#include <signal.h>
#include <stdio.h>
#include <stdlib.h>
#include <string.h>

#define COUNT(array) (sizeof(array) / sizeof *(array))

/* What is tried, how many values were compared, and how many were wrong. */
static char trial[80];
static size_t compared, wrong;

static bool expect(const char *field, size_t expected, size_t came) {
    compared++;
    if (came == expected) {
        return true;
    }
    wrong++;
    printf("%s: %s: wanted %lu, came %lu\n", trial, field,
           (unsigned long)expected, (unsigned long)came);
    return false;
}

static bool expect_in(const char *array, size_t place, size_t expected, size_t came) {
    char field[40];
    snprintf(field, sizeof field, "%s[%lu]", array, (unsigned long)place);
    return expect(field, expected, came);
}

static void expect_refusal(struct cunaweho_refusal came, unsigned number,
                           enum cunaweho_item item, unsigned state,
                           unsigned new_state, size_t place) {
    expect("refusal.number", number, came.number);
    expect("refusal.item", item, came.item);
    expect("refusal.state", state, came.state);
    expect("refusal.new_state", new_state, came.new_state);
    expect("refusal.place", place, came.place);
}

static void expect_granted(struct cunaweho_refusal came) {
    expect_refusal(came, 0, CUNAWEHO_NOTHING, 0, 0, 0);
}

/* The memory that is lent, and what it has to hold afterwards. There is more of
 * it than any call is told of. */
struct memory {
    uint16_t old_words[1000], new_words[1000];
    uint32_t table[12];
    uint8_t bytes[24];
};

static struct memory lent, wanted;

enum { UNTOUCHED_WORD = 0xA5C3, UNTOUCHED_BYTE = 0xAA };
#define UNTOUCHED_ENTRY 0xDEADBEEFu

static void put_table(struct memory *memory, const uint32_t *entries, size_t len) {
    memcpy(memory->table, entries, len * sizeof *entries);
}

/* Begins a trial: everything is as no call would leave it, but for the entries
 * of a table. */
static void begin(const char *call, const char *what,
                  const uint32_t *entries, size_t len) {
    size_t at;
    snprintf(trial, sizeof trial, "%s, %s", call, what);
    for (at = 0; at < COUNT(lent.old_words); at++) {
        lent.old_words[at] = lent.new_words[at] = UNTOUCHED_WORD;
    }
    for (at = 0; at < COUNT(lent.table); at++) {
        lent.table[at] = UNTOUCHED_ENTRY;
    }
    memset(lent.bytes, UNTOUCHED_BYTE, sizeof lent.bytes);
    if (len != 0) {
        put_table(&lent, entries, len);
    }
    wanted = lent;
}

/* Up to the first that is wrong. */
#define EXPECT_ARRAY(name)                                                    \
    do {                                                                      \
        size_t at = 0;                                                        \
        while (at < COUNT(lent.name) &&                                       \
               expect_in(#name, at, wanted.name[at], lent.name[at])) {        \
            at++;                                                             \
        }                                                                     \
    } while (false)

static void expect_memory(void) {
    EXPECT_ARRAY(old_words);
    EXPECT_ARRAY(new_words);
    EXPECT_ARRAY(table);
    EXPECT_ARRAY(bytes);
}

/* A type: its file, how many words hold it, and those of them that are not 0. */
struct word {
    uint16_t place, value;
};
struct type {
    const uint8_t *file;
    size_t file_len, words_len;
    const struct word *words;
    size_t count;
};
#define TYPE(name, words_len) \
    {name##_file, COUNT(name##_file), words_len, name##_words, COUNT(name##_words)}

static void put_type(uint16_t *words, const struct type *type) {
    size_t at;
    memset(words, 0, type->words_len * sizeof *words);
    for (at = 0; at < type->count; at++) {
        words[type->words[at].place] = type->words[at].value;
    }
}

/* Two states of two channels, as in docs/FORMATS.md. */
static const uint8_t sample_file[] = {0x02, 0x02,
                                      0x0A, 0x01, 0x02, 0x01, 0x00, 0x01,
                                      0x13, 0x80, 0x7D, 0x01, 0x02, 0x01, 0x00};
static const struct word sample_words[] = {
    {0, 2},       {1, 2},
    {2, 32773},   {3, 32767},   {4, 2},   {5, 1}, {22, 1},
    {262, 32758}, {263, 40768}, {264, 1}, {265, 2}, {266, 1}};
static const struct type sample = TYPE(sample, 522);

/* The buffers of capacity 1 and 2. */
static const uint8_t one_file[] = {0x02, 0x01,
                                   0x00, 0x03, 0x02, 0x00, 0x00, 0x01, 0x01, 0x00, 0x00,
                                   0x02, 0x03, 0x02, 0x01, 0x01, 0x01, 0x01, 0x00, 0x01};
static const struct word one_words[] = {
    {0, 2},       {1, 1},
    {2, 32768},   {3, 3},   {4, 2},   {21, 1},  {22, 1},
    {261, 32769}, {262, 3}, {263, 2}, {264, 1}, {265, 1}, {280, 1}, {281, 1}, {297, 1}};
static const struct type one = TYPE(one, 520);

static const uint8_t two_file[] = {0x03, 0x01,
                                   0x00, 0x03, 0x02, 0x00, 0x00, 0x01, 0x01, 0x00, 0x00,
                                   0x02, 0x03, 0x02, 0x01, 0x01, 0x02, 0x02, 0x00, 0x01,
                                   0x04, 0x03, 0x02, 0x02, 0x02, 0x02, 0x02, 0x01, 0x02};
static const struct word two_words[] = {
    {0, 3},       {1, 1},
    {2, 32768},   {3, 3},   {4, 2},   {21, 1},  {22, 1},
    {261, 32769}, {262, 3}, {263, 2}, {264, 1}, {265, 1}, {280, 2}, {281, 2}, {297, 1},
    {520, 32770}, {521, 3}, {522, 2}, {523, 2}, {524, 2}, {539, 2}, {540, 2}, {555, 1},
    {556, 2}};
static const struct type two = TYPE(two, 779);

/* States that stay: two, which show 10 and 20; and three, which show 20, 30 and
 * 10. */
static const uint8_t tens_file[] = {0x02, 0x01,
                                    0x14, 0x01, 0x01, 0x00,
                                    0x28, 0x01, 0x01, 0x01};
static const struct word tens_words[] = {
    {0, 2}, {1, 1}, {2, 32778}, {3, 1}, {4, 1},
    {261, 32788}, {262, 1}, {263, 1}, {264, 1}};
static const struct type tens = TYPE(tens, 520);

static const uint8_t turned_file[] = {0x03, 0x01,
                                      0x28, 0x01, 0x01, 0x00,
                                      0x3C, 0x01, 0x01, 0x01,
                                      0x14, 0x01, 0x01, 0x02};
static const struct word turned_words[] = {
    {0, 3}, {1, 1}, {2, 32788}, {3, 1}, {4, 1},
    {261, 32798}, {262, 1}, {263, 1}, {264, 1},
    {520, 32778}, {521, 1}, {522, 1}, {523, 2}};
static const struct type turned = TYPE(turned, 779);

/* A state of eight channels: all 0; and another on each. */
static const uint8_t level_file[] = {0x01, 0x08,
                                     0x00, 0x00, 0x00, 0x00, 0x00, 0x00, 0x00, 0x00,
                                     0x01, 0x01, 0x00};
static const struct word level_words[] = {
    {0, 1},     {1, 8},     {2, 32768}, {3, 32768}, {4, 32768}, {5, 32768},
    {6, 32768}, {7, 32768}, {8, 32768}, {9, 32768}, {10, 1},    {11, 1}};
static const struct type level = TYPE(level, 268);

static const uint8_t primes_file[] = {0x01, 0x08,
                                      0x04, 0x06, 0x0A, 0x0E, 0x16, 0x1A, 0x22, 0x26,
                                      0x01, 0x01, 0x00};
static const struct word primes_words[] = {
    {0, 1},     {1, 8},     {2, 32770}, {3, 32771}, {4, 32773}, {5, 32775},
    {6, 32779}, {7, 32781}, {8, 32785}, {9, 32787}, {10, 1},    {11, 1}};
static const struct type primes = TYPE(primes, 268);

/* What the five calls on an exchange are lent. Those on words can be lent a
 * word of either type that is other than the type's. */
struct exchange {
    const struct type *old_type, *new_type;
    struct cunaweho_tolerances tolerances;
    size_t old_file_len, new_file_len, old_words_len, new_words_len, table_len;
    const struct word *old_change, *new_change;
};

/* With just the memory that it wants, and all tolerances 0. */
static struct exchange exchange_of(const struct type *old_type,
                                   const struct type *new_type, size_t pairs) {
    struct exchange made;
    memset(&made, 0, sizeof made);
    made.old_type = old_type;
    made.new_type = new_type;
    made.old_file_len = old_type->file_len;
    made.new_file_len = new_type->file_len;
    made.old_words_len = old_type->words_len;
    made.new_words_len = new_type->words_len;
    made.table_len = pairs;
    return made;
}

static struct cunaweho_decision decide(const struct exchange *exchange) {
    return cunaweho_decide(exchange->old_type->file, exchange->old_file_len,
                           exchange->new_type->file, exchange->new_file_len,
                           &exchange->tolerances,
                           lent.old_words, exchange->old_words_len,
                           lent.new_words, exchange->new_words_len,
                           lent.table, exchange->table_len);
}

static struct cunaweho_ranks rank(const struct exchange *exchange) {
    return cunaweho_rank(exchange->old_type->file, exchange->old_file_len,
                         exchange->new_type->file, exchange->new_file_len,
                         &exchange->tolerances,
                         lent.old_words, exchange->old_words_len,
                         lent.new_words, exchange->new_words_len,
                         lent.table, exchange->table_len);
}

static struct cunaweho_decision decide_words(const struct exchange *exchange) {
    return cunaweho_decide_words(lent.old_words, exchange->old_words_len,
                                 lent.new_words, exchange->new_words_len,
                                 &exchange->tolerances,
                                 lent.table, exchange->table_len);
}

static struct cunaweho_certificate check(const struct exchange *exchange) {
    return cunaweho_check(lent.old_words, exchange->old_words_len,
                          lent.new_words, exchange->new_words_len,
                          &exchange->tolerances,
                          lent.table, exchange->table_len);
}

static struct cunaweho_ranks rank_words(const struct exchange *exchange) {
    return cunaweho_rank_words(lent.old_words, exchange->old_words_len,
                               lent.new_words, exchange->new_words_len,
                               &exchange->tolerances,
                               lent.table, exchange->table_len);
}

/* Lays out both types in the words of the memory. */
static void lay_out(struct memory *memory, const struct exchange *exchange) {
    put_type(memory->old_words, exchange->old_type);
    put_type(memory->new_words, exchange->new_type);
}

/* Begins a trial of a call on words: both types lie in them. */
static void begin_laid_out(const char *call, const char *what,
                           const struct exchange *exchange,
                           const uint32_t *entries, size_t len) {
    begin(call, what, entries, len);
    lay_out(&lent, exchange);
    if (exchange->old_change != NULL) {
        lent.old_words[exchange->old_change->place] = exchange->old_change->value;
    }
    if (exchange->new_change != NULL) {
        lent.new_words[exchange->new_change->place] = exchange->new_change->value;
    }
    wanted = lent;
}

/* What is wanted of the calls where they are granted. */
struct answers {
    uint32_t swept, standing;
    bool replaces;
    uint32_t highest;
    /* The pairs' strikes and their ranks. */
    uint32_t strikes[6], ranks[6];
};

static void expect_decision(struct cunaweho_decision came,
                            const struct answers *answers) {
    expect_granted(came.refusal);
    expect("swept", answers->swept, came.swept);
    expect("standing", answers->standing, came.standing);
    expect("replaces", answers->replaces, came.replaces);
    expect_memory();
}

static void try_decide(const char *what, const struct exchange *exchange,
                       size_t pairs, const struct answers *answers) {
    begin("decide", what, NULL, 0);
    lay_out(&wanted, exchange);
    put_table(&wanted, answers->strikes, pairs);
    expect_decision(decide(exchange), answers);

    begin_laid_out("decide_words", what, exchange, NULL, 0);
    put_table(&wanted, answers->strikes, pairs);
    expect_decision(decide_words(exchange), answers);
}

static void try_check(const char *what, const struct exchange *exchange,
                      const uint32_t *table, size_t pairs,
                      const struct answers *answers) {
    struct cunaweho_certificate came;
    begin_laid_out("check", what, exchange, table, pairs);
    came = check(exchange);
    expect_granted(came.refusal);
    expect("standing", answers->standing, came.standing);
    expect("replaces", answers->replaces, came.replaces);
    expect_memory();
}

static void expect_ranks(struct cunaweho_ranks came, const struct answers *answers) {
    expect_granted(came.refusal);
    expect("highest", answers->highest, came.highest);
    expect_memory();
}

static void try_rank(const char *what, const struct exchange *exchange,
                     size_t pairs, const struct answers *answers) {
    begin("rank", what, NULL, 0);
    lay_out(&wanted, exchange);
    put_table(&wanted, answers->ranks, pairs);
    expect_ranks(rank(exchange), answers);

    begin_laid_out("rank_words", what, exchange, NULL, 0);
    put_table(&wanted, answers->ranks, pairs);
    expect_ranks(rank_words(exchange), answers);
}

static void try_granted(const char *what, const struct exchange *exchange,
                        size_t pairs, const struct answers *answers) {
    try_decide(what, exchange, pairs, answers);
    try_check(what, exchange, answers->strikes, pairs, answers);
    try_check(what, exchange, answers->ranks, pairs, answers);
    try_rank(what, exchange, pairs, answers);
}

/* A check that names a pair, and changes nothing. */
static void try_pair(const char *what, const struct exchange *exchange,
                     const uint32_t *table, size_t pairs, unsigned number,
                     unsigned state, unsigned new_state) {
    struct cunaweho_certificate came;
    begin_laid_out("check", what, exchange, table, pairs);
    came = check(exchange);
    expect_refusal(came.refusal, number, CUNAWEHO_PAIR, state, new_state, 0);
    expect("standing", 0, came.standing);
    expect("replaces", false, came.replaces);
    expect_memory();
}

/* A refusal with no new state, and where it is told. */
struct refused {
    unsigned number;
    enum cunaweho_item item;
    unsigned state;
    size_t place;
};

static struct refused refused_with(unsigned number, enum cunaweho_item item,
                                   unsigned state, size_t place) {
    struct refused made;
    made.number = number;
    made.item = item;
    made.state = state;
    made.place = place;
    return made;
}

static void expect_refused(struct cunaweho_refusal came, struct refused refused) {
    expect_refusal(came, refused.number, refused.item, refused.state, 0, refused.place);
    expect_memory();
}

static void expect_no_decision(struct cunaweho_decision came, struct refused refused) {
    expect("swept", 0, came.swept);
    expect("standing", 0, came.standing);
    expect("replaces", false, came.replaces);
    expect_refused(came.refusal, refused);
}

static void expect_no_ranks(struct cunaweho_ranks came, struct refused refused) {
    expect("highest", 0, came.highest);
    expect_refused(came.refusal, refused);
}

/* The two calls on files are refused, and change nothing. */
static void try_refused_files(const char *what, const struct exchange *exchange,
                              struct refused refused) {
    begin("decide", what, NULL, 0);
    expect_no_decision(decide(exchange), refused);
    begin("rank", what, NULL, 0);
    expect_no_ranks(rank(exchange), refused);
}

/* The three calls on words are refused, and change nothing. */
static void try_refused_words(const char *what, const struct exchange *exchange,
                              struct refused refused) {
    struct cunaweho_certificate certificate;
    begin_laid_out("decide_words", what, exchange, NULL, 0);
    expect_no_decision(decide_words(exchange), refused);
    begin_laid_out("check", what, exchange, NULL, 0);
    certificate = check(exchange);
    expect("standing", 0, certificate.standing);
    expect("replaces", false, certificate.replaces);
    expect_refused(certificate.refusal, refused);
    begin_laid_out("rank_words", what, exchange, NULL, 0);
    expect_no_ranks(rank_words(exchange), refused);
}

/* Each of the five calls is refused in the same way. */
static void try_refused(const char *what, const struct exchange *exchange,
                        unsigned number, enum cunaweho_item item,
                        unsigned state, size_t place) {
    const struct refused refused = refused_with(number, item, state, place);
    try_refused_files(what, exchange, refused);
    try_refused_words(what, exchange, refused);
}

/* A word of the old type, of the new, and of both that breaks the layout. */
static void try_layout(const char *what, const struct exchange *whole,
                       const struct word *old_change,
                       const struct word *new_change, unsigned number) {
    struct exchange exchange = *whole;
    exchange.new_change = new_change;
    try_refused_words(what, &exchange,
                      refused_with(number, CUNAWEHO_NEW_WORDS, 0, 0));
    exchange.old_change = old_change;
    try_refused_words(what, &exchange,
                      refused_with(number, CUNAWEHO_OLD_WORDS, 0, 0));
    exchange.new_change = NULL;
    try_refused_words(what, &exchange,
                      refused_with(number, CUNAWEHO_OLD_WORDS, 0, 0));
    exchange.tolerances.channels[5] = CUNAWEHO_MAX_TOLERANCE + 1;
    try_refused_words(what, &exchange,
                      refused_with(27, CUNAWEHO_TOLERANCES, 0, 5));
}

static void try_layouts(void) {
    static const struct word no_state = {0, 0}, many_states = {0, 257};
    static const struct word no_channel = {1, 0}, many_channels = {1, 9};
    static const struct word no_move = {3, 0}, many_moves = {4, 17};
    static const struct word third = {22, 2}, fourth = {556, 3};
    const struct exchange whole = exchange_of(&one, &two, 6);
    struct exchange exchange = whole;
    try_layout("no state", &whole, &no_state, &no_state, 18);
    try_layout("257 states", &whole, &many_states, &many_states, 18);
    try_layout("no channel", &whole, &no_channel, &no_channel, 19);
    try_layout("nine channels", &whole, &many_channels, &many_channels, 19);
    try_layout("no move", &whole, &no_move, &no_move, 21);
    try_layout("17 moves", &whole, &many_moves, &many_moves, 21);
    try_layout("next state n", &whole, &third, &fourth, 22);

    exchange.new_words_len = 778;
    try_refused_words("new words short", &exchange,
                      refused_with(20, CUNAWEHO_NEW_WORDS, 0, 0));
    exchange.old_words_len = 519;
    try_refused_words("both words short", &exchange,
                      refused_with(20, CUNAWEHO_OLD_WORDS, 0, 0));
    exchange = whole;
    exchange.new_words_len = 1;
    try_refused_words("one new word", &exchange,
                      refused_with(20, CUNAWEHO_NEW_WORDS, 0, 0));
    exchange.old_words_len = 0;
    try_refused_words("no old word", &exchange,
                      refused_with(20, CUNAWEHO_OLD_WORDS, 0, 0));

    /* Behind the layouts comes what is refused of both types together. */
    exchange = exchange_of(&one, &sample, 3);
    try_refused_words("other channels, table short", &exchange,
                      refused_with(2, CUNAWEHO_EXCHANGE, 0, 0));
    exchange = whole;
    exchange.new_change = &fourth;
    exchange.table_len = 5;
    try_refused_words("next state n, table short", &exchange,
                      refused_with(22, CUNAWEHO_NEW_WORDS, 0, 0));
}

static void try_buffers(void) {
    static const struct answers bigger = {4, 2, true, 1, {0, 1, 2, 3, 0, 4}, {0, 1, 1, 1, 0, 1}};
    static const struct answers smaller = {6, 0, false, 3, {6, 1, 2, 5, 3, 4}, {3, 1, 1, 2, 1, 1}};
    static const uint32_t leaning[] = {3, 1, 1, 3, 1, 1};
    static const uint32_t loose[] = {0, 1, 2, 3, 0, 0};
    static const uint32_t unfounded[] = {0, 0, 1, 0, 0, 7};
    struct exchange whole = exchange_of(&one, &two, 6), exchange = whole;
    try_granted("capacity 1 by 2", &exchange, 6, &bigger);
    try_pair("capacity 1 by 2, standing", &exchange, loose, 6, 14, 1, 2);
    exchange.tolerances.channels[0] = 1;
    try_pair("capacity 1 by 2, struck", &exchange, unfounded, 6, 13, 1, 2);

    /* With more than is wanted, of each another number. */
    exchange = whole;
    exchange.old_words_len += 1;
    exchange.new_words_len += 2;
    exchange.table_len += 3;
    try_granted("capacity 1 by 2, more room", &exchange, 6, &bigger);

    exchange = whole;
    exchange.old_file_len = 19;
    try_refused_files("old file cut", &exchange,
                      refused_with(15, CUNAWEHO_OLD_FILE, 1, 19));
    exchange = whole;
    exchange.new_file_len = 28;
    try_refused_files("new file cut", &exchange,
                      refused_with(15, CUNAWEHO_NEW_FILE, 2, 28));
    exchange = whole;
    exchange.old_words_len = 519;
    try_refused_files("old words short", &exchange,
                      refused_with(20, CUNAWEHO_OLD_FILE, 0, 1));
    exchange = whole;
    exchange.new_words_len = 778;
    try_refused_files("new words short", &exchange,
                      refused_with(20, CUNAWEHO_NEW_FILE, 0, 1));
    exchange = whole;
    exchange.table_len = 5;
    try_refused("table short", &exchange, 4, CUNAWEHO_EXCHANGE, 0, 0);
    exchange = exchange_of(&one, &sample, 4);
    try_refused("other channels", &exchange, 2, CUNAWEHO_EXCHANGE, 0, 0);

    exchange = exchange_of(&two, &one, 6);
    try_granted("capacity 2 by 1", &exchange, 6, &smaller);
    try_pair("capacity 2 by 1, leaning", &exchange, leaning, 6, 13, 0, 0);
}

/* Pairs stand, but not that of the start states. */
static void try_still(void) {
    static const struct answers answers = {4, 2, false, 1, {1, 2, 0, 0, 3, 4}, {1, 1, 0, 0, 1, 1}};
    static const uint32_t loose[] = {1, 2, 0, 0, 3, 0};
    static const uint32_t unfounded[] = {1, 2, 9, 0, 3, 4};
    const struct exchange exchange = exchange_of(&tens, &turned, 6);
    try_granted("still", &exchange, 6, &answers);
    try_pair("still, standing", &exchange, loose, 6, 14, 1, 2);
    try_pair("still, struck", &exchange, unfounded, 6, 13, 0, 2);
}

static void try_tolerances(void) {
    static const uint16_t just_enough[] = {2, 3, 5, 7, 11, 13, 17, 19};
    static const struct answers alike = {0, 1, true, 0, {0}, {0}};
    static const struct answers unlike = {1, 0, false, 1, {1}, {1}};
    struct exchange whole = exchange_of(&level, &primes, 1), exchange;
    size_t channel;
    memcpy(whole.tolerances.channels, just_enough, sizeof just_enough);
    try_granted("tolerances", &whole, 1, &alike);
    for (channel = 0; channel < COUNT(just_enough); channel++) {
        char what[40];
        snprintf(what, sizeof what, "tolerance of channel %lu", (unsigned long)channel);
        exchange = whole;
        exchange.tolerances.channels[channel] -= 1;
        try_granted(what, &exchange, 1, &unlike);
        exchange.tolerances.channels[channel] = CUNAWEHO_MAX_TOLERANCE;
        try_granted(what, &exchange, 1, &alike);
        exchange.tolerances.channels[channel] += 1;
        try_refused(what, &exchange, 27, CUNAWEHO_TOLERANCES, 0, channel);
    }
}

/* The sample between other bytes: its file begins at byte 3 of 20. */
static uint8_t framed[20];

/* Reads into the words from word 11 on, and tells what has to come. */
static void try_read(const char *what, size_t bytes_len, size_t place,
                     size_t words_len, size_t at, unsigned number,
                     unsigned state, size_t fault) {
    struct cunaweho_read came;
    begin("read_system", what, NULL, 0);
    if (number == 0) {
        put_type(wanted.old_words + at, &sample);
    }
    came = cunaweho_read_system(framed, bytes_len, place, lent.old_words, words_len, at);
    expect_refusal(came.refusal, number,
                   number == 0 ? CUNAWEHO_NOTHING : CUNAWEHO_FILE, state, 0, fault);
    expect("words", number == 0 ? 522 : 0, came.words);
    expect("end", number == 0 ? 18 : 0, came.end);
    expect_memory();
}

static void try_reads(void) {
    memset(framed, 0x80, sizeof framed);
    memcpy(framed + 3, sample_file, sizeof sample_file);
    try_read("more room", 20, 3, 540, 11, 0, 0, 0);
    try_read("just room", 18, 3, 533, 11, 0, 0, 0);
    try_read("bytes cut", 17, 3, 533, 11, 15, 1, 17);
    try_read("words short", 18, 3, 532, 11, 20, 0, 4);
    try_read("place past the end", 20, 21, 540, 11, 15, 0, 21);
    try_read("at past the end", 20, 3, 540, 541, 20, 0, 4);
    framed[17] = 2;
    try_read("next state 2 of 2", 20, 3, 540, 11, 22, 1, 17);
}

/* Writes what lies in words that have others behind them. */
static void try_write(const char *what, size_t words_len, size_t bytes_len,
                      const uint8_t *file, size_t file_len) {
    const bool is_granted = file_len <= bytes_len;
    struct cunaweho_written came;
    begin("write_system", what, NULL, 0);
    put_type(lent.old_words, &sample);
    put_type(wanted.old_words, &sample);
    if (is_granted) {
        memcpy(wanted.bytes, file, file_len);
    }
    came = cunaweho_write_system(lent.old_words, words_len, lent.bytes, bytes_len);
    expect_refusal(came.refusal, is_granted ? 0 : 23,
                   is_granted ? CUNAWEHO_NOTHING : CUNAWEHO_SYSTEM, 0, 0, 0);
    expect("bytes", is_granted ? file_len : 0, came.bytes);
    expect_memory();
}

static void try_writes(void) {
    static const uint8_t resting_file[] = {0x01, 0x01, 0x00, 0x01, 0x01, 0x00};
    try_write("more room", 530, 20, sample_file, sizeof sample_file);
    try_write("just room", 522, 15, sample_file, sizeof sample_file);
    try_write("bytes short", 522, 14, sample_file, sizeof sample_file);
    try_write("words cut", 521, 20, resting_file, sizeof resting_file);
}

static void try_numbers(void) {
    snprintf(trial, sizeof trial, "numbers of the header");
    expect("CUNAWEHO_MAX_WORDS", 68098, CUNAWEHO_MAX_WORDS);
    expect("CUNAWEHO_MAX_ENTRIES", 65536, CUNAWEHO_MAX_ENTRIES);
    expect("CUNAWEHO_MAX_BYTES", 137731, CUNAWEHO_MAX_BYTES);
    expect("CUNAWEHO_WORDS", 522, CUNAWEHO_WORDS(2, 2));
    expect("CUNAWEHO_ENTRIES", 6, CUNAWEHO_ENTRIES(2, 3));
}

/* Parameters that lie otherwise can make a call reach past all memory. */
static void tell_crash(int number) {
    printf("%s: the call crashed, by signal %d\n", trial, number);
    fflush(stdout);
    _Exit(1);
}

int main(void) {
    signal(SIGSEGV, tell_crash);
    try_numbers();
    try_reads();
    try_writes();
    try_buffers();
    try_still();
    try_layouts();
    try_tolerances();
    if (wrong != 0) {
        printf("%lu of %lu values are wrong\n", (unsigned long)wrong, (unsigned long)compared);
        return 1;
    }
    printf("%lu values are right\n", (unsigned long)compared);
    return 0;
}
