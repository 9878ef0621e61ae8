/*
 * Cunaweho: decides whether a new buoy controller may float where an old one
 * does.
 *
 * Each type is filed as a finite system. A call is lent the bytes of files, or
 * words that hold systems, and memory for what it makes of them, and answers by
 * value. docs/RULES.md says what the answers mean, docs/FORMATS.md how files,
 * words and tables look, and docs/REFUSALS.md what each refusal number says.
 *
 * What a call is lent. Several values in a row are lent as a pointer and their
 * number. No pointer may be null, also where the number is 0, and each must be
 * aligned for what it points to. All of it must be readable, and writable where
 * it is not `const`, as long as the call runs. What a call may write must not
 * overlap anything else that it is lent; what it only reads may overlap. These
 * are the only things that a caller has to see to: whatever the bytes, words,
 * entries and tolerances are, each call answers.
 *
 * What a call keeps. Nothing: there is no state behind the calls, and no call
 * allocates. Calls share nothing, so any number may run at once, each with
 * memory of its own to write to; what they only read they may share.
 *
 * How refusals come. A call tests everything in the order that is told at its
 * declaration, and answers with what is refused first. `number` in its
 * `refusal` is then that of docs/REFUSALS.md, and every other field of the
 * answer is 0 but for those of the refusal that are told of. Where `number` is
 * 0 the call is granted and the other fields of the refusal are 0 as well.
 *
 * How much to lend. The first two numbers of a system file are its states and
 * its channels; CUNAWEHO_MAX_WORDS words and CUNAWEHO_MAX_ENTRIES entries are
 * enough for any.
 *
 * C99, and C++ from C++11 on.
 */
#ifndef CUNAWEHO_H
#define CUNAWEHO_H

#include <stdbool.h>
#include <stddef.h>
#include <stdint.h>

#ifdef __cplusplus
extern "C" {
#endif

/* The most that a stored system has. */
#define CUNAWEHO_MAX_STATES 256
#define CUNAWEHO_MAX_CHANNELS 8
#define CUNAWEHO_MAX_MOVES 16

/* The largest tolerance. */
#define CUNAWEHO_MAX_TOLERANCE 1000

/* The words that a system of so many states and channels takes: for 256 states
 * of 8 channels 68,098. */
#define CUNAWEHO_WORDS(states, channels) \
    ((size_t)2 + (size_t)(states) * ((size_t)(channels) + 258))
#define CUNAWEHO_MAX_WORDS \
    CUNAWEHO_WORDS(CUNAWEHO_MAX_STATES, CUNAWEHO_MAX_CHANNELS)

/* The entries that the table of an exchange takes: for 256 states on either
 * side 65,536. */
#define CUNAWEHO_ENTRIES(old_states, new_states) \
    ((size_t)(old_states) * (size_t)(new_states))
#define CUNAWEHO_MAX_ENTRIES \
    CUNAWEHO_ENTRIES(CUNAWEHO_MAX_STATES, CUNAWEHO_MAX_STATES)

/* The bytes that are enough to write any system of so many states and channels:
 * for 256 states of 8 channels 137,731. */
#define CUNAWEHO_BYTES(states, channels) \
    ((size_t)3 + (size_t)(states) * (3 * (size_t)(channels) + 2 + 2 * 256))
#define CUNAWEHO_MAX_BYTES \
    CUNAWEHO_BYTES(CUNAWEHO_MAX_STATES, CUNAWEHO_MAX_CHANNELS)

/* What is refused: a value of `item`. */
enum cunaweho_item {
    CUNAWEHO_NOTHING = 0,    /* the call is granted */
    CUNAWEHO_TOLERANCES = 1, /* a tolerance */
    CUNAWEHO_OLD_FILE = 2,   /* a number of the old type's file */
    CUNAWEHO_NEW_FILE = 3,   /* a number of the new type's file */
    CUNAWEHO_EXCHANGE = 4,   /* both systems together, or the table for them */
    CUNAWEHO_PAIR = 5,       /* a pair out of order in a certificate */
    CUNAWEHO_FILE = 6,       /* a number of the file that is read */
    CUNAWEHO_SYSTEM = 7,     /* the system to be written, or the bytes for it */
    CUNAWEHO_OLD_WORDS = 8,  /* the layout of the old type's words */
    CUNAWEHO_NEW_WORDS = 9   /* the layout of the new type's words */
};

/* Why a call is refused. */
struct cunaweho_refusal {
    /* The number of the refusal in docs/REFUSALS.md; 0 where it is granted. */
    uint8_t number;
    /* What is refused, one of `enum cunaweho_item`. */
    uint8_t item;
    /* In a file: the state in whose row the refused number stands, 0 at the
     * numbers of states and channels. At a pair: the old state. Else 0. */
    uint16_t state;
    /* At a pair: the new state. Else 0. */
    uint16_t new_state;
    /* In a file: the byte where the refused number begins. At a tolerance: its
     * channel. Else 0. */
    size_t place;
};

/* By how much readings may differ and still be alike, channel by channel from
 * 0 on; each 0 to 1,000. Those of channels that the systems do not have are
 * tested as well, and change nothing else. */
struct cunaweho_tolerances {
    uint16_t channels[CUNAWEHO_MAX_CHANNELS];
};

/* The answer of a read. */
struct cunaweho_read {
    struct cunaweho_refusal refusal;
    /* How many words the system takes. */
    size_t words;
    /* The byte behind the file. */
    size_t end;
};

/* The answer of a write. */
struct cunaweho_written {
    struct cunaweho_refusal refusal;
    /* How many bytes the file takes. */
    size_t bytes;
};

/* The answer of a decision. */
struct cunaweho_decision {
    struct cunaweho_refusal refusal;
    /* How many pairs were struck. */
    uint32_t swept;
    /* How many pairs are left standing. */
    uint32_t standing;
    /* The verdict: whether the new type may float where the old one does. */
    bool replaces;
};

/* The answer of a certificate check. */
struct cunaweho_certificate {
    struct cunaweho_refusal refusal;
    /* How many pairs stand in the table. */
    uint32_t standing;
    /* The verdict that the table shows. */
    bool replaces;
};

/* The answer of a ranking. */
struct cunaweho_ranks {
    struct cunaweho_refusal refusal;
    /* The highest rank, 0 where no pair has one. */
    uint32_t highest;
};

/*
 * Reads the system file that begins at byte `place` of the bytes, and lays out
 * its system from word `at` of the words on. The numbers of bytes and words
 * count from the pointers, not from `place` and `at`. Bytes behind the file are
 * not looked at.
 *
 * Refused with, item CUNAWEHO_FILE, each number tested as it is read:
 *   15  the bytes end inside a number; a `place` at or past their end as well
 *   16  the third byte of a number has its high bit set
 *   17  a number is above 65,535
 *   18  the number of states is not 1 to 256
 *   19  the number of channels is not 1 to 8
 *   20  fewer words are left from `at` on than the system takes, none where
 *       `at` is past their end; told of the number of channels
 *   21  a number of moves is not 1 to 16
 *   22  a next state is not below the number of states
 * with `place` the byte where the number begins, counted from `bytes`, and
 * `state` the state in whose row it stands.
 *
 * Granted: the words of the system, from `at` on, hold it; all others are as
 * they were. Refused: all words are as they were.
 *
 * Takes less than 4 KB of stack, as trials showed.
 */
struct cunaweho_read cunaweho_read_system(
    const uint8_t *bytes, size_t bytes_len, size_t place,
    uint16_t *words, size_t words_len, size_t at);

/*
 * Writes the file of the system that lies at the front of the words, each
 * number in the fewest bytes. Words behind the system are not looked at. Where
 * the words do not have the layout, that is the file of the resting system: one
 * state with reading 0, which one move each leads back to.
 *
 * Refused with, item CUNAWEHO_SYSTEM:
 *   23  the bytes are fewer than the file takes
 *
 * Granted: the file stands at the front of the bytes, and those behind it are
 * as they were. Refused: all bytes are as they were.
 *
 * Takes less than 4 KB of stack, as trials showed.
 */
struct cunaweho_written cunaweho_write_system(
    const uint16_t *words, size_t words_len,
    uint8_t *bytes, size_t bytes_len);

/*
 * The five calls on an exchange: an old type, a new type and tolerances. Two
 * are lent the types in files, three in words that hold them already.
 *
 * Each is lent a table with an entry for each pair of states,
 * CUNAWEHO_ENTRIES(old states, new states) or more. That of pair (w, w') is
 * entry w * n' + w', where n' is the number of new states. An entry of 0 says
 * that the pair stands, any other that it is struck. What the table held before
 * does not matter, but for that of a check.
 *
 * Where a call is refused, all that was lent is as it was. Where it is granted,
 * entries behind those of the pairs are as they were.
 *
 * Each takes up to about 0.5 MB of stack, as trials showed; below 1,024 pairs
 * far less.
 *
 * The two calls on files are lent both files, which begin at the front of their
 * bytes, with anything behind them; and words for the two systems,
 * CUNAWEHO_WORDS(states, channels) of them each or more, whatever they held
 * before. Each is refused with, in this order:
 *   27  a tolerance is above 1,000: item CUNAWEHO_TOLERANCES, with `place` the
 *       first channel that has one
 *   15 to 22  as a read of the old file from byte 0 into all of `old_words`:
 *       item CUNAWEHO_OLD_FILE, with `place` and `state` as there
 *   15 to 22  the same of the new file and `new_words`: item CUNAWEHO_NEW_FILE
 *    2  the types do not have the same number of channels: item
 *       CUNAWEHO_EXCHANGE
 *    4  the table has fewer entries than there are pairs: item
 *       CUNAWEHO_EXCHANGE
 *
 * Granted: the two systems lie at the front of their words, where the three
 * calls on words find them; words behind them are as they were.
 */

/*
 * Decides whether the new type may float where the old one does: opens a
 * docket, sweeps with a budget of 65,535 until a sweep makes no strike, and
 * settles. Nothing is struck before, so `swept` and `standing` together are the
 * number of pairs.
 *
 * Granted: the table holds the strikes, as a certificate that cunaweho_check
 * accepts. The pairs that stand in it are those of the largest alternating
 * simulation, and `replaces` is true exactly where the pair of the start states
 * is one of them.
 */
struct cunaweho_decision cunaweho_decide(
    const uint8_t *old_file, size_t old_file_len,
    const uint8_t *new_file, size_t new_file_len,
    const struct cunaweho_tolerances *tolerances,
    uint16_t *old_words, size_t old_words_len,
    uint16_t *new_words, size_t new_words_len,
    uint32_t *table, size_t table_len);

/*
 * Ranks the pairs: how soon each is refuted, 1 for a pair that is unlike, and
 * 0 for one that stands.
 *
 * Granted: the table holds the ranks, the only table that solves the rank rule;
 * cunaweho_check accepts it.
 */
struct cunaweho_ranks cunaweho_rank(
    const uint8_t *old_file, size_t old_file_len,
    const uint8_t *new_file, size_t new_file_len,
    const struct cunaweho_tolerances *tolerances,
    uint16_t *old_words, size_t old_words_len,
    uint16_t *new_words, size_t new_words_len,
    uint32_t *table, size_t table_len);

/*
 * The three calls on words are lent words at whose front the two systems lie,
 * as a read at word 0 or a granted call on files leaves them, with anything
 * behind them.
 * The words are only read. Each call is refused with, in this order:
 *   27  a tolerance is above 1,000: item CUNAWEHO_TOLERANCES, with `place` the
 *       first channel that has one
 *   18 to 22  the words of the old type do not have the layout: item
 *       CUNAWEHO_OLD_WORDS
 *   18 to 22  the same of the new type: item CUNAWEHO_NEW_WORDS
 *    2  the types do not have the same number of channels: item
 *       CUNAWEHO_EXCHANGE
 *    4  the table has fewer entries than there are pairs: item
 *       CUNAWEHO_EXCHANGE
 *
 * The layout is tested in this order: 20 for under two words; 18 where the
 * number of states is not 1 to 256; 19 where the number of channels is not 1 to
 * 8; 20 where there are fewer than CUNAWEHO_WORDS(states, channels) words; then
 * state by state 21 where a number of moves is not 1 to 16, and 22 where a next
 * state that is used is not below the number of states.
 */

/*
 * Decides as cunaweho_decide does.
 */
struct cunaweho_decision cunaweho_decide_words(
    const uint16_t *old_words, size_t old_words_len,
    const uint16_t *new_words, size_t new_words_len,
    const struct cunaweho_tolerances *tolerances,
    uint32_t *table, size_t table_len);

/*
 * Checks whether the table is a certificate of the exchange, whoever wrote it:
 * whether it shows by itself that its standing pairs are the largest
 * simulation.
 *
 * Beside the refusals above, and after them, it is refused at the first pair,
 * in the order of the entries, that is out of order:
 *   13  it is struck, and neither unlike nor refuted by smaller entries
 *   14  it stands, and is unlike or refuted
 * with item CUNAWEHO_PAIR, `state` its old state and `new_state` its new one.
 *
 * The table is only read as well, so that nothing is written at all.
 */
struct cunaweho_certificate cunaweho_check(
    const uint16_t *old_words, size_t old_words_len,
    const uint16_t *new_words, size_t new_words_len,
    const struct cunaweho_tolerances *tolerances,
    const uint32_t *table, size_t table_len);

/*
 * Ranks as cunaweho_rank does.
 */
struct cunaweho_ranks cunaweho_rank_words(
    const uint16_t *old_words, size_t old_words_len,
    const uint16_t *new_words, size_t new_words_len,
    const struct cunaweho_tolerances *tolerances,
    uint32_t *table, size_t table_len);

#ifdef __cplusplus
}
#endif

#endif
