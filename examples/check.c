/*
 * Checks the record or the exchange file that is named, and prints the line of document 01; or prints a record's proof
 * in sentences; or tests whether its goal is independent of a principal. The exit status is 0 for granted, equal and
 * independent, 1 for refused and not independent, and 2 where there is no verdict, because the file cannot be read or
 * what it prints cannot be written. At the top of the repository:
 *
 *     (cd crates/ffi && rt lib)
 *     cc -Iinclude examples/check.c crates/ffi/out/libffi.a -o crates/ffi/out/check
 *     crates/ffi/out/check record samples/A.record
 */
#include <stdio.h>
#include <stdlib.h>
#include <string.h>

#include "wethrynda.h"

/* The bytes of a file of any length. Null, after a word on standard error, where it cannot be read. */
static uint8_t *read_whole(const char *name, size_t *length) {
    FILE *in = fopen(name, "rb");
    if (in == NULL) {
        perror(name);
        return NULL;
    }
    size_t room = 65536, used = 0;
    uint8_t *bytes = malloc(room);
    while (bytes != NULL) {
        used += fread(bytes + used, 1, room - used, in);
        if (used < room) {
            break;
        }
        room *= 2;
        uint8_t *more = realloc(bytes, room);
        if (more == NULL) {
            free(bytes);
        }
        bytes = more;
    }
    if (bytes == NULL || ferror(in)) {
        perror(name);
        free(bytes);
        bytes = NULL;
    }
    fclose(in);
    *length = used;
    return bytes;
}

/* Each of these prints the line of an answer, and gives the exit status for it. */
static int print_refused(uint64_t answer) {
    printf("refused %u place %u\n", (unsigned)wethrynda_number(answer), (unsigned)wethrynda_place(answer));
    return 1;
}

static int print_record(uint64_t answer, const uint16_t *signers) {
    if (!wethrynda_is_granted(answer)) {
        return print_refused(answer);
    }
    printf("granted %u", (unsigned)wethrynda_count(answer));
    for (uint32_t i = 0; i < wethrynda_count(answer); i++) {
        printf(" %u", (unsigned)signers[i]);
    }
    printf("\n");
    return 0;
}

static int print_exchange(uint64_t answer) {
    if (!wethrynda_is_equal(answer)) {
        return print_refused(answer);
    }
    printf("equal\n");
    return 0;
}

/* The text, or the line of a refusal; 16 where these bytes are too few for it. */
static int print_sentences(const uint8_t *file, size_t length) {
    static uint8_t text[1048576];
    uint16_t signers[WETHRYNDA_MOST_SIGNERS] = {0};
    uint64_t written = 0;
    uint64_t answer =
        wethrynda_sentences(file, length, signers, WETHRYNDA_MOST_SIGNERS, text, sizeof text, &written);
    if (!wethrynda_is_granted(answer)) {
        return print_refused(answer);
    }
    fwrite(text, 1, (size_t)written, stdout);
    return ferror(stdout) ? 2 : 0;
}

static int print_independence(uint64_t answer) {
    if (wethrynda_number(answer) != 0) {
        return print_refused(answer);
    }
    printf("%s\n", wethrynda_is_independent(answer) ? "independent" : "not independent");
    return wethrynda_is_independent(answer) ? 0 : 1;
}

/* Whether the word is a number in figures. One that is too large counts as 65,535, which is no principal's. */
static int is_principal(const char *word, uint16_t *principal) {
    unsigned long number = strtoul(word, NULL, 10);
    *principal = number < UINT16_MAX ? (uint16_t)number : UINT16_MAX;
    return *word != '\0' && word[strspn(word, "0123456789")] == '\0';
}

int main(int argc, char **argv) {
    uint16_t principal = 0;
    int is_record = argc == 3 && strcmp(argv[1], "record") == 0;
    int is_exchange = argc == 3 && strcmp(argv[1], "exchange") == 0;
    int is_sentences = argc == 3 && strcmp(argv[1], "sentences") == 0;
    int is_independent = argc == 4 && strcmp(argv[1], "independent") == 0 && is_principal(argv[2], &principal);
    if (!is_record && !is_exchange && !is_sentences && !is_independent) {
        fprintf(stderr, "usage: check record FILE, check exchange FILE, check sentences FILE, or\n"
                        "       check independent PRINCIPAL FILE\n");
        return 2;
    }
    size_t length;
    uint8_t *file = read_whole(argv[argc - 1], &length);
    if (file == NULL) {
        return 2;
    }
    int status;
    if (is_record) {
        uint16_t signers[WETHRYNDA_MOST_SIGNERS] = {0};
        uint64_t answer = wethrynda_record(file, length, signers, WETHRYNDA_MOST_SIGNERS);
        status = print_record(answer, signers);
    } else if (is_exchange) {
        status = print_exchange(wethrynda_exchange(file, length));
    } else if (is_sentences) {
        status = print_sentences(file, length);
    } else {
        status = print_independence(wethrynda_independent(file, length, principal));
    }
    free(file);
    return fflush(stdout) == 0 ? status : 2;
}
