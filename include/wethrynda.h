/*
 * Wethrynda: the checks of release records and of exchange files, the proof of a record in sentences, and the test
 * whether a principal can matter to a record's goal, for C. The library is crates/ffi/out/libffi.a, for x86-64 Linux;
 * `rt lib` in the folder crates/ffi makes it. Link it by its path, as examples/check.c is linked: another library has
 * the name `ffi` too. From outside it needs memcpy and memset, and nothing else.
 *
 * wethrynda_check_record, wethrynda_check_exchange, wethrynda_write_sentences and wethrynda_independent_of are written
 * and proved in Rattle. Their contracts are in crates/ffi/src/lib.rt and decide where a comment here is unclear.
 * Nothing checks these declarations against them. A caller in C should use the inline functions wethrynda_record,
 * wethrynda_exchange, wethrynda_sentences and wethrynda_independent, since in C an empty file, list or text may be a
 * null pointer, which the proved functions must not be given.
 */
#ifndef WETHRYNDA_H
#define WETHRYNDA_H

#include <stdbool.h>
#include <stddef.h>
#include <stdint.h>

#ifdef __cplusplus
extern "C" {
#endif

/* A list of so many words is long enough for the signers of every record. */
#define WETHRYNDA_MOST_SIGNERS 256

/*
 * Checks the record in the bytes file[0] .. file[file_length - 1], any bytes of any number, and answers one number,
 * which the functions below take apart. It makes every test itself and always answers: it allocates nothing, reads and
 * writes no file, and keeps nothing from call to call.
 *
 * Granted: the record's signers, principal numbers from 0 to 4095, stand in signers[0] .. signers[count - 1], each
 * once, strictly rising by number. The words after them are as they were. Signers are those who carried the release:
 * the principals K with a statement K says A that some says left of the proof names. A paper that lies unused makes no
 * signer.
 * Refused: no word of the list has changed. A list shorter than the number of signers is refusal 8, place 0, tested
 * after 1 to 7 and 9 to 15: such a record would be granted with a longer list.
 *
 * What the caller sees to, since the function cannot test it:
 * - Neither pointer is null, even where its length is 0. A pointer to any object will do there. `signers` is aligned as
 *   a uint16_t is.
 * - The file has `file_length` bytes that may be read, and the list, which is lent for the call, `signers_length` words
 *   that may be read and written. They do not overlap, and no other thread changes either until the call is over.
 *   (Calls may run at the same time on lists of their own.)
 * - The thread has about 300 KB of stack left: a proof may be 512 steps deep, and the file's words are held on the
 *   stack. Main threads have that; a thread that is made with a small stack may not, and then the process ends.
 */
uint64_t wethrynda_check_record(const uint8_t *file, size_t file_length, uint16_t *signers, size_t signers_length);

/*
 * The same check, where a null pointer with length 0 is right too: the proved function is then handed a pointer to an
 * object of this one's own, which it neither reads nor writes, since the length is 0. All else is handed on as it is,
 * and the caller sees to it as above: null with another length stays the caller's mistake.
 */
static inline uint64_t wethrynda_record(const uint8_t *file, size_t file_length, uint16_t *signers,
                                        size_t signers_length) {
    const uint8_t no_bytes = 0;
    uint16_t no_words = 0;
    return wethrynda_check_record(file == NULL && file_length == 0 ? &no_bytes : file, file_length,
                                  signers == NULL && signers_length == 0 ? &no_words : signers, signers_length);
}

/*
 * Checks the exchange file in the bytes file[0] .. file[file_length - 1], any bytes of any number, and answers one
 * number, which the functions below take apart. It makes every test itself and always answers: it allocates nothing,
 * reads and writes no file, and keeps nothing from call to call. What is lent, the file, is not changed.
 *
 * Equal: the file proves each statement of the second list from the first list, and each of the first from the second;
 * so the two lists are equal in force: whatever has a proof from one has a proof from the other.
 * Refused: this file does not show it. The lists may be equal in force all the same.
 *
 * What the caller sees to, since the function cannot test it:
 * - The pointer is not null, even where the length is 0. A pointer to any object will do there.
 * - The file has `file_length` bytes that may be read, and no other thread changes them until the call is over. (Calls
 *   may run at the same time, on the same file too.)
 * - The thread has about 300 KB of stack left, as for a record.
 */
uint64_t wethrynda_check_exchange(const uint8_t *file, size_t file_length);

/* The same check, where a null pointer with length 0 is right too, as in wethrynda_record. */
static inline uint64_t wethrynda_exchange(const uint8_t *file, size_t file_length) {
    const uint8_t no_bytes = 0;
    return wethrynda_check_exchange(file == NULL && file_length == 0 ? &no_bytes : file, file_length);
}

/*
 * Checks the record in the bytes file[0] .. file[file_length - 1], any bytes of any number, writes its proof as text,
 * and answers one number, which the functions below take apart as a record's. It makes every test itself and always
 * answers: it allocates nothing, reads and writes no file, and keeps nothing from call to call.
 *
 * Granted: the record's signers stand in signers[0] .. signers[count - 1], as after wethrynda_check_record; the text
 * stands in text[0] .. text[written[0] - 1], a line for each step, each ended by a line feed, with no null byte after
 * it; and written[0] is how many bytes that is, where `written_length` is 1 or more. The words and the bytes after them
 * are as they were, and so are written[1] and all that follow.
 * Refused: nothing that is lent has changed, `written` neither. A list shorter than the number of signers is refusal 8,
 * as above. Fewer bytes than the whole text has are refusal 16, place 0, tested after all others, 8 too. A short proof
 * may have a text that is too long for any memory.
 *
 * What the caller sees to, since the function cannot test it:
 * - No pointer is null, even where its length is 0. A pointer to any object will do there. `signers` is aligned as a
 *   uint16_t is, and `written` as a uint64_t is.
 * - The file has `file_length` bytes that may be read; the list, the text and the count, which are lent for the call,
 *   have so many words, bytes and numbers that may be read and written. No two of the four overlap, and no other thread
 *   changes any of them until the call is over. (Calls may run at the same time on lists and texts of their own.)
 * - The thread has about 800 KB of stack left: a formula may be 4,095 operands deep, and the writer goes down with it.
 */
uint64_t wethrynda_write_sentences(const uint8_t *file, size_t file_length, uint16_t *signers, size_t signers_length,
                                   uint8_t *text, size_t text_length, uint64_t *written, size_t written_length);

/*
 * The same, where a null pointer with length 0 is right too, as in wethrynda_record. The number of bytes goes into
 * *written, which a refusal leaves as it was; `written` may be null where nobody wants the number.
 */
static inline uint64_t wethrynda_sentences(const uint8_t *file, size_t file_length, uint16_t *signers,
                                           size_t signers_length, uint8_t *text, size_t text_length,
                                           uint64_t *written) {
    const uint8_t no_bytes = 0;
    uint16_t no_words = 0;
    uint8_t no_text = 0;
    uint64_t unwanted = 0;
    return wethrynda_write_sentences(file == NULL && file_length == 0 ? &no_bytes : file, file_length,
                                     signers == NULL && signers_length == 0 ? &no_words : signers, signers_length,
                                     text == NULL && text_length == 0 ? &no_text : text, text_length,
                                     written == NULL ? &unwanted : written, 1);
}

/*
 * Tests whether the papers of the principal with this number could touch the goal of the record in the bytes file[0] ..
 * file[file_length - 1], any bytes of any number, and answers one number, which the functions below take apart. The
 * words of the steps are counted and never looked at. It makes every test itself and always answers: it allocates
 * nothing, reads and writes no file, and keeps nothing from call to call. What is lent, the file, is not changed.
 *
 * Independent, which is 0: each proof of the goal stays one, step by step, after the statements K says A of this
 * principal K are taken out or exchanged for others of his within the limits. The record as it is may be granted or
 * refused.
 * Not independent, which is 1: his papers may matter. That they do is not said.
 * Refused: 1 to 7 as for a record; and after them 17, place 0: the principal's number is above 4095.
 *
 * What the caller sees to, since the function cannot test it:
 * - The pointer and the file, as for an exchange file.
 * - The thread has about 180 KB of stack left: the table is held and searched for repeated entries there.
 */
uint64_t wethrynda_independent_of(const uint8_t *file, size_t file_length, uint16_t principal);

/* The same test, where a null pointer with length 0 is right too, as in wethrynda_record. */
static inline uint64_t wethrynda_independent(const uint8_t *file, size_t file_length, uint16_t principal) {
    const uint8_t no_bytes = 0;
    return wethrynda_independent_of(file == NULL && file_length == 0 ? &no_bytes : file, file_length, principal);
}

/*
 * Of a record's answer, or that of its sentences: whether it was granted; else it was refused. (Refused by 16, a record
 * is granted, and its text is longer than what was lent.)
 */
static inline bool wethrynda_is_granted(uint64_t answer) { return answer >> 32 == 0; }

/* Of a granted record: how many signers it has. */
static inline uint32_t wethrynda_count(uint64_t answer) { return (uint32_t)(answer & 0xffffffffu); }

/* Of an exchange file's answer only: whether it shows that its lists are equal in force; else it is refused. */
static inline bool wethrynda_is_equal(uint64_t answer) { return answer >> 32 == 0; }

/* Of an answer about a principal only: whether the goal is independent of him; else it is not, or it is refused. */
static inline bool wethrynda_is_independent(uint64_t answer) { return answer == 0; }

/*
 * Of a refused record or exchange file: the refusal's number, 1 to 15, or of sentences 1 to 16, of a principal 1 to 7
 * and 17, which says why (samples/README.md has the list). 0 if it is not refused, and so where a goal is not
 * independent.
 */
static inline uint32_t wethrynda_number(uint64_t answer) { return (uint32_t)(answer >> 32); }

/*
 * Of a refused record or exchange file: the place, counted from 0: the entry, the statement or the step where the
 * reason was found, or 0. In an exchange file statements are counted through the first list and then the second, and
 * steps through all proofs. It says nothing of what is not refused.
 */
static inline uint32_t wethrynda_place(uint64_t answer) { return (uint32_t)(answer & 0xffffffffu); }

#ifdef __cplusplus
}
#endif

#endif
