/* Decides the sample exchange of README: may a type of two states float where
 * one of a single state does, with readings alike that differ by at most 3? */
#include "cunaweho.h"
#include <stdio.h>

static const uint8_t old_file[] = {0x01, 0x01, 0x0A, 0x01, 0x01, 0x00};
static const uint8_t new_file[] = {0x02, 0x01, 0x0A, 0x01, 0x02, 0x00, 0x01,
                                   0x12, 0x01, 0x01, 0x01};
static uint16_t old_words[CUNAWEHO_MAX_WORDS], new_words[CUNAWEHO_MAX_WORDS];
static uint32_t table[CUNAWEHO_MAX_ENTRIES];

int main(void) {
    const struct cunaweho_tolerances tolerances = {{3}};
    const struct cunaweho_decision decision = cunaweho_decide(
        old_file, sizeof old_file, new_file, sizeof new_file, &tolerances,
        old_words, CUNAWEHO_MAX_WORDS, new_words, CUNAWEHO_MAX_WORDS,
        table, CUNAWEHO_MAX_ENTRIES);
    if (decision.refusal.number != 0) {
        printf("refused with %d\n", decision.refusal.number);
        return 1;
    }
    /* The words hold both systems now, and the table shows the verdict. */
    const struct cunaweho_certificate certificate = cunaweho_check(
        old_words, CUNAWEHO_MAX_WORDS, new_words, CUNAWEHO_MAX_WORDS, &tolerances,
        table, CUNAWEHO_MAX_ENTRIES);
    if (certificate.refusal.number != 0 || certificate.replaces != decision.replaces) {
        printf("the table is no certificate\n");
        return 1;
    }
    printf("swept %lu\nstanding %lu\n%s\n", (unsigned long)decision.swept,
           (unsigned long)decision.standing,
           decision.replaces ? "replaces" : "differs");
    return 0;
}
