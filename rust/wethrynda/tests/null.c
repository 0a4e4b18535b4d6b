/*
 * Null pointers to the header's inline functions, and what the one for sentences leaves in the list, the text and the
 * count that are lent to it. It is linked with --wrap for the four proved functions, so each call of one comes to the
 * function with __wrap_ here, and __real_ is the proved one. It prints each call that goes wrong, and the exit status
 * is then 1.
 */
#include <stdio.h>
#include <string.h>

#include "wethrynda.h"

/* The answer to a call that was handed a null pointer, in place of the proved function's, which is never this. */
#define NULL_HANDED_ON UINT64_MAX

/* The answers of the proved functions. */
#define GRANTED_COUNT_0 ((uint64_t)0)
#define GRANTED_COUNT_1 ((uint64_t)1)
#define REFUSED_1_PLACE_0 ((uint64_t)1 << 32)
#define REFUSED_8_PLACE_0 ((uint64_t)8 << 32)
#define REFUSED_16_PLACE_0 ((uint64_t)16 << 32)
#define REFUSED_17_PLACE_0 ((uint64_t)17 << 32)
#define INDEPENDENT ((uint64_t)0)
#define NOT_INDEPENDENT ((uint64_t)1)

uint64_t __real_wethrynda_check_record(const uint8_t *file, size_t file_length, uint16_t *signers,
                                       size_t signers_length);

uint64_t __wrap_wethrynda_check_record(const uint8_t *file, size_t file_length, uint16_t *signers,
                                       size_t signers_length) {
    if (file == NULL || signers == NULL) {
        return NULL_HANDED_ON;
    }
    return __real_wethrynda_check_record(file, file_length, signers, signers_length);
}

uint64_t __real_wethrynda_check_exchange(const uint8_t *file, size_t file_length);

uint64_t __wrap_wethrynda_check_exchange(const uint8_t *file, size_t file_length) {
    if (file == NULL) {
        return NULL_HANDED_ON;
    }
    return __real_wethrynda_check_exchange(file, file_length);
}

uint64_t __real_wethrynda_write_sentences(const uint8_t *file, size_t file_length, uint16_t *signers,
                                          size_t signers_length, uint8_t *text, size_t text_length, uint64_t *written,
                                          size_t written_length);

uint64_t __wrap_wethrynda_write_sentences(const uint8_t *file, size_t file_length, uint16_t *signers,
                                          size_t signers_length, uint8_t *text, size_t text_length, uint64_t *written,
                                          size_t written_length) {
    if (file == NULL || signers == NULL || text == NULL || written == NULL) {
        return NULL_HANDED_ON;
    }
    return __real_wethrynda_write_sentences(file, file_length, signers, signers_length, text, text_length, written,
                                            written_length);
}

uint64_t __real_wethrynda_independent_of(const uint8_t *file, size_t file_length, uint16_t principal);

uint64_t __wrap_wethrynda_independent_of(const uint8_t *file, size_t file_length, uint16_t principal) {
    if (file == NULL) {
        return NULL_HANDED_ON;
    }
    return __real_wethrynda_independent_of(file, file_length, principal);
}

/* Samples A, with one signer, and B, with none. */
static const uint8_t A[] = {2, 0, 1, 0, 4, 0, 1, 0, 0, 0, 7, 80, 0, 0, 0, 0, 1, 0, 0, 160, 1, 176, 0, 16, 0, 0};
static const uint8_t B[] = {3, 0, 1, 0, 3, 0, 1, 0, 0, 0, 7, 80, 8, 80, 0, 0, 0, 0, 0, 0, 0, 0, 0, 160, 0, 16, 0, 0};

/* A's text as document 02 writes it, and how many bytes it has. */
static const char TEXT_OF_A[] = "0 says right for (p7 says a0)\n"
                                "1 says left (p7 says a0) for p7 affirms a0\n"
                                "2 affirm for p7 affirms a0\n"
                                "3 init a0 for a0\n";
#define BYTES_OF_A 117

/* B's text, and how many bytes it has. */
static const char TEXT_OF_B[] = "0 says right for (p7 says a0)\n1 affirm for p7 affirms a0\n2 init a0 for a0\n";
#define BYTES_OF_B (sizeof TEXT_OF_B - 1)

/* What `written` and the list hold before a call. No principal has this number. */
#define NO_COUNT ((uint64_t)987654321)
#define NO_SIGNER ((uint16_t)60000)

/* The exit status for one call: 1, after a line about it, where the answer is another than is wanted. */
static int differs(const char *call, uint64_t answer, uint64_t wanted) {
    if (answer == wanted) {
        return 0;
    }
    printf("%s: %#llx, and %#llx is wanted\n", call, (unsigned long long)answer, (unsigned long long)wanted);
    return 1;
}

/* The proved function itself on B, which has no signer: what is in `written` after a grant and after a refusal. */
static int count_differs(void) {
    uint16_t list[1] = {0};
    uint8_t text[BYTES_OF_B + 1] = {0};
    uint64_t written[2] = {NO_COUNT, NO_COUNT};
    int wrong = 0;
    uint64_t answer = wethrynda_write_sentences(B, sizeof B, list, 1, text, BYTES_OF_B - 1, written, 2);
    wrong |= differs("B, a byte too few", answer, REFUSED_16_PLACE_0);
    wrong |= differs("B, a byte too few, written", written[0], NO_COUNT);
    answer = wethrynda_write_sentences(B, sizeof B - 1, list, 1, text, sizeof text, written, 2);
    wrong |= differs("B cut, written", answer >> 32 == 3 ? written[0] : answer, NO_COUNT);
    answer = wethrynda_write_sentences(B, sizeof B, list, 1, text, sizeof text, written, 0);
    wrong |= differs("B, no count lent", answer, GRANTED_COUNT_0);
    wrong |= differs("B, no count lent, written", written[0], NO_COUNT);
    answer = wethrynda_write_sentences(B, sizeof B, list, 1, text, BYTES_OF_B, written, 2);
    wrong |= differs("B, sentences", answer, GRANTED_COUNT_0);
    wrong |= differs("B, written", written[0], BYTES_OF_B);
    wrong |= differs("B, the number after it", written[1], NO_COUNT);
    wrong |= differs("B, its text", (uint64_t)memcmp(text, TEXT_OF_B, BYTES_OF_B), 0);
    wrong |= differs("B, the byte after it", text[BYTES_OF_B], 0);
    return wrong;
}

/* The inline function on A, which has one signer: what is in the list, the text and the count, with room to spare. */
static int lent_differs(void) {
    uint16_t list[2] = {NO_SIGNER, NO_SIGNER};
    uint8_t text[BYTES_OF_A + 1] = {0};
    uint64_t written = NO_COUNT;
    int wrong = differs("A, the length of its text", sizeof TEXT_OF_A - 1, BYTES_OF_A);
    uint64_t answer = wethrynda_sentences(A, sizeof A, list, 2, text, BYTES_OF_A - 1, &written);
    wrong |= differs("A, a byte too few", answer, REFUSED_16_PLACE_0);
    wrong |= differs("A, a byte too few, the list", list[0], NO_SIGNER);
    wrong |= differs("A, a byte too few, the text", text[0], 0);
    answer = wethrynda_sentences(A, sizeof A, list, 2, text, sizeof text, &written);
    wrong |= differs("A, sentences", answer, GRANTED_COUNT_1);
    wrong |= differs("A, its signer", list[0], 7);
    wrong |= differs("A, the word after it", list[1], NO_SIGNER);
    wrong |= differs("A, written", written, BYTES_OF_A);
    wrong |= differs("A, its text", (uint64_t)memcmp(text, TEXT_OF_A, BYTES_OF_A), 0);
    wrong |= differs("A, the byte after it", text[BYTES_OF_A], 0);
    return wrong;
}

/* The inline function on A, whose goal is 7's word, and how its answers are taken apart. */
static int independence_differs(void) {
    uint64_t of_7 = wethrynda_independent(A, sizeof A, 7), of_8 = wethrynda_independent(A, sizeof A, 8);
    uint64_t of_4096 = wethrynda_independent(A, sizeof A, 4096);
    int wrong = differs("A of 7", of_7, NOT_INDEPENDENT);
    wrong |= differs("A of 8", of_8, INDEPENDENT);
    wrong |= differs("A of 4096", of_4096, REFUSED_17_PLACE_0);
    wrong |= differs("A of 7, is independent", wethrynda_is_independent(of_7), false);
    wrong |= differs("A of 8, is independent", wethrynda_is_independent(of_8), true);
    wrong |= differs("A of 4096, is independent", wethrynda_is_independent(of_4096), false);
    wrong |= differs("A of 7, the number", wethrynda_number(of_7), 0);
    wrong |= differs("A of 8, the number", wethrynda_number(of_8), 0);
    wrong |= differs("A of 4096, the number", wethrynda_number(of_4096), 17);
    wrong |= differs("A of 4096, the place", wethrynda_place(of_4096), 0);
    return wrong;
}

int main(void) {
    uint16_t list[1] = {0};
    uint8_t text[BYTES_OF_B] = {0};
    uint64_t written = NO_COUNT;
    int wrong = count_differs() | lent_differs() | independence_differs();
    /* length 0 */
    wrong |= differs("no file", wethrynda_record(NULL, 0, list, 1), REFUSED_1_PLACE_0);
    wrong |= differs("no file, no list", wethrynda_record(NULL, 0, NULL, 0), REFUSED_1_PLACE_0);
    wrong |= differs("B, no list", wethrynda_record(B, sizeof B, NULL, 0), GRANTED_COUNT_0);
    wrong |= differs("A, no list", wethrynda_record(A, sizeof A, NULL, 0), REFUSED_8_PLACE_0);
    wrong |= differs("no exchange file", wethrynda_exchange(NULL, 0), REFUSED_1_PLACE_0);
    wrong |= differs("no file, a principal", wethrynda_independent(NULL, 0, 4096), REFUSED_1_PLACE_0);
    wrong |= differs("no file, sentences", wethrynda_sentences(NULL, 0, list, 1, text, sizeof text, &written),
                     REFUSED_1_PLACE_0);
    wrong |= differs("nothing, sentences", wethrynda_sentences(NULL, 0, NULL, 0, NULL, 0, NULL), REFUSED_1_PLACE_0);
    wrong |= differs("A, no list, no text", wethrynda_sentences(A, sizeof A, NULL, 0, NULL, 0, &written),
                     REFUSED_8_PLACE_0);
    wrong |= differs("A, no text", wethrynda_sentences(A, sizeof A, list, 1, NULL, 0, &written), REFUSED_16_PLACE_0);
    wrong |= differs("refused, written", written, NO_COUNT);
    wrong |= differs("B, no list, its text", wethrynda_sentences(B, sizeof B, NULL, 0, text, sizeof text, &written),
                     GRANTED_COUNT_0);
    wrong |= differs("B, no list, written", written, BYTES_OF_B);
    wrong |= differs("B, no count", wethrynda_sentences(B, sizeof B, NULL, 0, text, sizeof text, NULL),
                     GRANTED_COUNT_0);
    /* another length, the caller's mistake: nothing of the header's own may stand for so many bytes or words */
    wrong |= differs("null, 1 byte", wethrynda_record(NULL, 1, list, 1), NULL_HANDED_ON);
    wrong |= differs("null, 1 word", wethrynda_record(A, sizeof A, NULL, 1), NULL_HANDED_ON);
    wrong |= differs("null, 1 byte, exchange", wethrynda_exchange(NULL, 1), NULL_HANDED_ON);
    wrong |= differs("null, 1 byte, a principal", wethrynda_independent(NULL, 1, 7), NULL_HANDED_ON);
    wrong |= differs("null, 1 byte, sentences", wethrynda_sentences(NULL, 1, list, 1, text, sizeof text, &written),
                     NULL_HANDED_ON);
    wrong |= differs("null, 1 word, sentences", wethrynda_sentences(A, sizeof A, NULL, 1, text, sizeof text, &written),
                     NULL_HANDED_ON);
    wrong |= differs("null, 1 byte of text", wethrynda_sentences(A, sizeof A, list, 1, NULL, 1, &written),
                     NULL_HANDED_ON);
    return wrong;
}
