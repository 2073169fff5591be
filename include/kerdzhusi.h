/*
 * Kerdzhusi: a verifier of class sheets, as a static library for C99 and C++.
 *
 * A library sheet and a user sheet are checked against each other, and each user class gets a
 * verdict of three numbers: the lowest rule that it breaks (1 to 10), the number of a record, and
 * the class in whose group that record stands: there the fault sits. A clean class has 0, 0 and 0.
 * Classes are numbered from 0 through the library sheet and on through the user sheet, at most 256
 * in all; records from 0 in each group, the CLASS first.
 *
 *   rules 1 to 6    the lowest record of the class that breaks the rule, and the class itself
 *   rules 7 to 10   the first fault of a walk: the class, then its superclasses in the user sheet
 *                   upward; in each its encloser (record 0), its fields in order, the variables
 *                   that it captures by owner and index (the LOCAL, and its owner); then the root,
 *                   the first library class above them (record 0); last, for rule 9, that objects
 *                   of the class itself are not compared by value (record 0)
 *
 *
 * Arguments
 *
 *   library, library_len    the library sheet
 *   user, user_len          the buffer of the user sheet. It may be longer than the sheet, and
 *                           longer than KZ_SHEET_BYTES
 *   used                    how many bytes of that buffer are the user sheet
 *   group, group_len        one class: a CLASS record and the records that belong to it, by kind:
 *                           CLASS, IMPLEMENTS, FIELD and so on, as in a sheet
 *   verdicts, verdicts_len  the verdicts, KZ_VERDICT_BYTES for each user class in class order:
 *                           rule, record number, class in which the fault sits, as in an array of
 *                           struct { uint8_t rule, record, class_number; }. One or two bytes that
 *                           are left at the end belong to no verdict
 *   scratch, scratch_len    KZ_SCRATCH_BYTES to work in, of any content; more is allowed
 *   out, out_len            a buffer that the call writes from its start on
 *   name, name_len          a name to look for or to fingerprint: any bytes, however many
 *   places, places_len      a row of uint16_t (aligned as such): a class number in each place, or
 *                           65,535 in an empty one. KZ_INDEX_PLACES of any content; more is allowed
 *
 * A pointer may be NULL where its length is 0: so the archive behaves, and the host's tests call it
 * so; the proofs speak of buffers that are there. `used` of kz_add, kz_replace and kz_withdraw is
 * never NULL. A buffer that a call may write overlaps no other argument, and nobody else writes any
 * of them meanwhile. Bytes, lengths and class numbers may be anything at all: there is nothing to
 * test before a call. The library keeps nothing between calls, so calls over different buffers may
 * run at once. It asks for no heap, and no call uses more than 8 KiB of stack on any sheet
 * (measured; the proofs do not speak of the stack).
 *
 *
 * Answers
 *
 *   status    0 if the call was accepted. A refusal is number | sheet << 8 | byte << 16: why, in
 *             which sheet (0 library, 1 user), and the byte where the record begins
 *   value     what the function says below; 0 on a refusal
 *
 * A refused call changes nothing: every buffer, and the used length, hold what they held before.
 *
 *
 * Refusals
 *
 *   1   a sheet is over KZ_SHEET_BYTES, or the used length is beyond the user buffer
 *   2   fewer than four bytes are left, or a record's length is below 4 or past the end
 *   3   a kind of record is unknown or belongs to the other sheet
 *   4   a record's length is none that its kind can have
 *   5   an undefined flag, a nonzero zero byte, a type code over 8, a primitive type with a class,
 *       or a byte of a name outside 33 to 126
 *   6   no CLASS stands before the record
 *   7   the 257th class, the 256th record of a group, or a library without classes
 *   8   the record breaks the form: superclass, encloser, interface or owner of a variable
 *   9   the record names a class, LOCAL or MEMBER that is not there
 *   10  a class name was met before, in either sheet
 *   11  a library class's markers clash, or class 0 has a marker; at its CLASS record
 *   12  too few verdicts, too little scratch or too few places
 *   13  no class has this number, or this name; for a replacement, no user class; for a withdrawal,
 *       there is none
 *   14  the group is not whole records with one CLASS, its first
 *   15  the new user sheet is over its buffer or over KZ_SHEET_BYTES; or the output buffer is
 *       shorter than what would be written
 *   16  the record's kind is lower than that of the record before it in its group
 *   17  another class names the one that would be withdrawn
 *
 * 1, 12 to 15 and 17 have byte 0, and 12 to 15 and 17 have sheet 0. They are looked for in this
 * order:
 *
 *   1; then record by record, the library's first, 2, 3, 4, 6, 5, 7, 16; then again record by
 *   record 9, 8, 10; then 11; then 13, 14, 15, 17; then 3 to 11 and 16, in the same order, in the
 *   new user sheet of an addition or a replacement, with the byte in it; then 12. But kz_lookup
 *   looks for 12 before 13.
 *
 *   kz_judge           1 to 12, 16
 *   kz_add             1 to 12, 14 to 16
 *   kz_replace         1 to 16
 *   kz_withdraw        1 to 13, 16, 17
 *   kz_name, kz_marks  1 to 11, 13, 16
 *   kz_canonical       1 to 11, 15, 16
 *   kz_index           1 to 12, 16
 *   kz_lookup          1 to 13, 16
 *   kz_fingerprint     none
 */
#ifndef KERDZHUSI_H
#define KERDZHUSI_H

#include <stddef.h>
#include <stdint.h>

#ifdef __cplusplus
extern "C" {
#endif

/* The bytes of a verdict: rule, record number, class in which the fault sits. */
#define KZ_VERDICT_BYTES 3
/* The bytes of scratch that kz_judge, kz_add and kz_replace ask for. */
#define KZ_SCRATCH_BYTES 65536
/* The most bytes of a sheet. */
#define KZ_SHEET_BYTES 32768
/* The places of an index: kz_index and kz_lookup ask for them and fill them. */
#define KZ_INDEX_PLACES 512

typedef struct {
    uint64_t status;
    uint64_t value;
} kz_answer;

/*
 * Judges every user class.
 *
 * value     how many user classes there are, and how many of them are faulted: kz_classes and
 *           kz_faulted take it apart
 * verdicts  one for each user class; the bytes after them are untouched
 * scratch   the first KZ_SCRATCH_BYTES are zero; the bytes after them are untouched
 */
kz_answer kz_judge(const uint8_t *library, size_t library_len,
                   const uint8_t *user, size_t user_len, size_t used,
                   uint8_t *verdicts, size_t verdicts_len,
                   uint8_t *scratch, size_t scratch_len);

/*
 * Adds a class after the last one. The verdicts are those of the present sheets, with room for
 * one more.
 *
 * value     the class's number
 * user      the group stands after the bytes that were used; all others are untouched
 * used      raised by group_len
 * verdicts  the new class's is written; all others are untouched
 * scratch   as kz_judge leaves it
 */
kz_answer kz_add(const uint8_t *library, size_t library_len,
                 uint8_t *user, size_t user_len, size_t *used,
                 const uint8_t *group, size_t group_len,
                 uint8_t *verdicts, size_t verdicts_len,
                 uint8_t *scratch, size_t scratch_len);

/*
 * Puts a group in the place of a user class. The verdicts are those of the present sheets.
 *
 * value     how many classes depend on the class, itself counted: those from which a chain of
 *           references leads to it in the new sheets
 * user      the group stands in the old one's place and the later groups follow it. Bytes that
 *           were used and are no longer are zero; those after them are untouched
 * used      the length of the new sheet
 * verdicts  those of the classes that depend on it are rewritten; all others are untouched
 * scratch   as kz_judge leaves it
 */
kz_answer kz_replace(const uint8_t *library, size_t library_len,
                     uint8_t *user, size_t user_len, size_t *used, size_t class_number,
                     const uint8_t *group, size_t group_len,
                     uint8_t *verdicts, size_t verdicts_len,
                     uint8_t *scratch, size_t scratch_len);

/*
 * Takes the last user class back out. The verdicts are those of the present sheets. No other class
 * may name it (17), so no other verdict changes. It asks for no scratch. After kz_add it gives back
 * the used bytes, the used length and all verdicts but the one.
 *
 * value     the class's number
 * user      the class's bytes are zero; all others are untouched
 * used      where the class began
 * verdicts  the class's is 0, 0 and 0; all others are untouched
 */
kz_answer kz_withdraw(const uint8_t *library, size_t library_len,
                      uint8_t *user, size_t user_len, size_t *used,
                      uint8_t *verdicts, size_t verdicts_len);

/*
 * Finds a class's name. Writes nothing.
 *
 * value     in which sheet the name stands, from which byte on and how long it is: kz_name_sheet,
 *           kz_name_offset and kz_name_length take it apart
 */
kz_answer kz_name(const uint8_t *library, size_t library_len,
                  const uint8_t *user, size_t user_len, size_t used, size_t class_number);

/*
 * Gives a class's overlay markers. Writes nothing.
 *
 * value     the set: bit 0 Immutable, 1 Powerless, 2 Selfless, 3 Equatable, 4 Token, 5 Throwable,
 *           6 Enum, 7 DeepSelfless
 */
kz_answer kz_marks(const uint8_t *library, size_t library_len,
                   const uint8_t *user, size_t user_len, size_t used, size_t class_number);

/*
 * Writes the canonical form of the user sheet: in each group IMPLEMENTS, USES, BUILDS and REFERS
 * ascend by class, then by index, without repeats; all other records stand as they did. Two sheets
 * over one library have the same canonical form if and only if they mean the same; it is accepted,
 * never longer than the sheet, and its own canonical form. Each class keeps its rule; the record of
 * a verdict may be another.
 *
 * value     the length of the form
 * out       begins with it; the bytes after it are untouched
 */
kz_answer kz_canonical(const uint8_t *library, size_t library_len,
                       const uint8_t *user, size_t user_len, size_t used,
                       uint8_t *out, size_t out_len);

/*
 * Fills an index of class names. The classes of both sheets enter in class order: each takes the
 * place that is its name's fingerprint modulo KZ_INDEX_PLACES or, where that is taken, the next one
 * that is free, place 0 coming after the last.
 *
 * The fingerprint has no key, so whoever chooses the names can make them collide. This changes no
 * answer; it only costs time. At most, where 256 names have one place, filling an index passes
 * 32,640 taken places. The check for 10 fills one too and passes as many places again, comparing
 * names of up to 100 bytes at each; every call over sheets makes it, kz_add and kz_replace twice.
 *
 * value     how many classes entered: all of both sheets
 * places    the first KZ_INDEX_PLACES are filled anew; those after them are untouched
 */
kz_answer kz_index(const uint8_t *library, size_t library_len,
                   const uint8_t *user, size_t user_len, size_t used,
                   uint16_t *places, size_t places_len);

/*
 * Finds the class that has a name, through an index. A name that no class can have, empty, over 100
 * bytes or with a byte outside 33 to 126, is refused like any other that is not there (13).
 *
 * value     the class's number
 * places    as kz_index leaves them
 */
kz_answer kz_lookup(const uint8_t *library, size_t library_len,
                    const uint8_t *user, size_t user_len, size_t used,
                    const uint8_t *name, size_t name_len,
                    uint16_t *places, size_t places_len);

/*
 * Gives the fingerprint of a name, 32-bit FNV-1a: it starts at 2,166,136,261; for each byte,
 * exclusive-or, then multiply by 16,777,619 and keep the low 32 bits. It is never refused, and
 * writes nothing.
 *
 * value     the fingerprint
 */
kz_answer kz_fingerprint(const uint8_t *name, size_t name_len);

/* The number of a refusal, 0 for a call that was accepted. */
static inline unsigned kz_refusal_number(uint64_t status) { return (unsigned)(status & 0xFF); }

/* The sheet that a refusal points at: 0 library, 1 user. */
static inline unsigned kz_refusal_sheet(uint64_t status) { return (unsigned)(status >> 8 & 0xFF); }

/* The byte of that sheet where the record begins. */
static inline size_t kz_refusal_byte(uint64_t status) { return (size_t)(status >> 16); }

/* How many user classes kz_judge found. */
static inline size_t kz_classes(uint64_t value) { return (size_t)(value & 0xFFFFFFFF); }

/* How many of them are not clean. */
static inline size_t kz_faulted(uint64_t value) { return (size_t)(value >> 32); }

/* The sheet that holds a name: 0 library, 1 user. */
static inline unsigned kz_name_sheet(uint64_t value) { return (unsigned)(value & 0xFF); }

/* The byte of that sheet where the name begins. */
static inline size_t kz_name_offset(uint64_t value) { return (size_t)(value >> 8 & 0xFFFFFF); }

/* The length of the name. */
static inline size_t kz_name_length(uint64_t value) { return (size_t)(value >> 32); }

#ifdef __cplusplus
}
#endif

#endif
