/* The proved checker from C or C++. Link with crates/link/out/liblink.a, which `rt lib` writes in crates/link (x86-64). */
#ifndef CERTIFICATE_H
#define CERTIFICATE_H

#include <stddef.h>
#include <stdint.h>

#ifdef __cplusplus
extern "C" {
#endif

/* The `length` bytes at `file` and the `count` bytes at `numbers` are read and not written, and no pointer is kept. Any bytes may be
   passed. `file` may be NULL where `length` is 0: that is an empty file, refused with 1 at 0. So may `numbers` where `count` is 0. */

/* 0 where the file's certificate shows that no forbidden state is ever reached, else the refusal. Every judgement of the file is true
   where it is 0, or of the number 12; each before the step that is its place where it is of a number from 8 to 11. */
uint64_t certificate_check(const uint8_t *file, size_t length);

/* The same for a caller with less room: a file of at most 16,384 bytes, 512 states in an explicit set and 256 steps. More is refused with
   19: at 0 for the size, after 1; at the length of the set, or at the step count, after 3 and 4 there. Any other reply is
   certificate_check's, so what is accepted here is accepted there. */
uint64_t certificate_check_small(const uint8_t *file, size_t length);

/* certificate_check for a file with the caller's own rule numbers: `numbers` is a list of 28 bytes from 1 to 255, no two of them equal,
   the k-th being the number that the file uses for rule k. A number that the list lacks is an unknown rule. A list of another length is
   refused with 18 and its length as place; then one with a zero, or a number used before, with 18 at the first such byte, counted
   from 0. Both come before the file is read. */
uint64_t certificate_check_numbered(const uint8_t *file, size_t length, const uint8_t *numbers, size_t count);

/* One round of a check, so that the caller can do other things between rounds: `count` steps from step `from` on, or as many as are
   left. 0 where the last step was reached and says "unsolvable"; 1 to 2,047 is the step to go on from, `from` + `count`; else the
   refusal. 17 at 0, after the refusals of the layout, says that `count` is 0 or over 2,048, or that the file has no step `from`; any
   numbers may be passed. A failing step is refused at its number in the file.
   By itself 0 says nothing about safety: a round judges its own steps, and takes what earlier ones say as it stands. Only a whole run
   makes a file accepted: begun at step 0, each later round at the step handed back, with the same bytes each time. It ends with
   certificate_check's reply, whatever the counts are; certificate_check is the run of one round of 2,048 steps. Nothing is kept from
   one call to the next, so questions may be put between rounds. */
uint64_t certificate_round(const uint8_t *file, size_t length, uint64_t from, uint64_t count);

/* Whether a state is in the set of an entry of the file: CERTIFICATE_OUT, CERTIFICATE_IN, else the refusal. */
uint64_t certificate_ask(const uint8_t *file, size_t length, uint64_t entry, uint64_t state);

enum { CERTIFICATE_OUT = 0, CERTIFICATE_IN = 1 };

/* A refusal is one number: the documents' refusal number times 2^32, plus its place. That is a byte of the file for the numbers 1
   to 7, 16 and 19, a step for 8 to 12, 0 for 13 and 17, and for 18 a byte of the list, or the list's length: 2^32 - 1 where that does
   not fit 32 bits. What is no refusal has number 0. */
#define CERTIFICATE_NUMBER(code) ((uint32_t)((uint64_t)(code) >> 32))
#define CERTIFICATE_PLACE(code) ((uint32_t)(code))

/* Each number with its name and what it means. */
#define CERTIFICATE_NUMBERS(EACH) \
    EACH(CERTIFICATE_ACCEPTED, 0, "accepted") \
    EACH(CERTIFICATE_REFUSED_LENGTH, 1, "under 4 bytes, over 65,536, or a wrong length field") \
    EACH(CERTIFICATE_REFUSED_VERSION, 2, "unknown version") \
    EACH(CERTIFICATE_REFUSED_END, 3, "a field, entry or step runs past the end, or bytes are left over") \
    EACH(CERTIFICATE_REFUSED_RANGE, 4, "n, a count or an entry's kind out of range, or an entry length unfit for its kind") \
    EACH(CERTIFICATE_REFUSED_FACT, 5, "a mask or state names fact n or above") \
    EACH(CERTIFICATE_REFUSED_REFERENCE, 6, "an action or entry number not allowed there") \
    EACH(CERTIFICATE_REFUSED_ORDER, 7, "an order or clause rule broken") \
    EACH(CERTIFICATE_REFUSED_STEP, 8, "unknown rule, wrong judgement kind, entry outside the file, " \
                                      "premise not an earlier step, or unused place not zero") \
    EACH(CERTIFICATE_REFUSED_PATTERN, 9, "pattern not matched") \
    EACH(CERTIFICATE_REFUSED_SHAPE, 10, "shape not permitted") \
    EACH(CERTIFICATE_REFUSED_UNTRUE, 11, "basic statement untrue") \
    EACH(CERTIFICATE_REFUSED_LAST, 12, "the last step is not \"unsolvable\"") \
    EACH(CERTIFICATE_REFUSED_QUESTION, 13, "a question that cannot be asked") \
    EACH(CERTIFICATE_REFUSED_UNKNOWN, 16, "a fact that is both on in the start and unknown") \
    EACH(CERTIFICATE_REFUSED_ROUND, 17, "a round of no steps or over 2,048, or begun beyond the last step") \
    EACH(CERTIFICATE_REFUSED_NUMBERS, 18, "a list of rule numbers that is not 28 different bytes from 1 to 255") \
    EACH(CERTIFICATE_REFUSED_SMALL, 19, "over a small limit: 16,384 bytes, 512 states in an explicit set, 256 steps")

#define CERTIFICATE_CONSTANT(name, number, text) name = number,
enum certificate_number { CERTIFICATE_NUMBERS(CERTIFICATE_CONSTANT) };
#undef CERTIFICATE_CONSTANT

/* What a number means. */
static inline const char *certificate_text(uint32_t number) {
#define CERTIFICATE_CASE(name, number, text) case name: return text;
    switch (number) {
    CERTIFICATE_NUMBERS(CERTIFICATE_CASE)
    default: return "unknown number";
    }
#undef CERTIFICATE_CASE
}

#ifdef __cplusplus
}
#endif

#endif
