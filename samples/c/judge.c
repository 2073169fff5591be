/*
 * Judges the two sheets of a folder and prints a row for each user class: number, name, rule,
 * record, class in which the fault sits. Then it mends the first field that is a fault, in whatever
 * class it stands, and prints the rows again; at last it takes the last class back out.
 * Build and run at the repository's root:
 *
 *     cc -Iinclude samples/c/judge.c crates/kerdzhusi/out/libkerdzhusi.a -o target/judge
 *     target/judge samples/papers
 */
#include "kerdzhusi.h"

#include <errno.h>
#include <stdio.h>
#include <stdlib.h>
#include <string.h>

enum { CLASS = 1, FIELD = 3, FINAL = 1, STATIC = 4, INT = 4, MOST_CLASSES = 256 };

/* One byte more than a sheet may have, so that a longer file is refused and not cut. */
static uint8_t library[KZ_SHEET_BYTES + 1], user[KZ_SHEET_BYTES + 1], group[KZ_SHEET_BYTES];
static uint8_t verdicts[MOST_CLASSES * KZ_VERDICT_BYTES], scratch[KZ_SCRATCH_BYTES];
static size_t library_len, used;

static size_t read_sheet(const char *folder, const char *name, uint8_t *sheet) {
    char path[4096];
    snprintf(path, sizeof path, "%s/%s", folder, name);
    FILE *file = fopen(path, "rb");
    size_t length = file ? fread(sheet, 1, KZ_SHEET_BYTES + 1, file) : 0;
    if (!file || ferror(file)) {
        fprintf(stderr, "judge: can't read %s: %s\n", path, strerror(errno));
        exit(1);
    }
    fclose(file);
    return length;
}

/* The value of an accepted call. */
static uint64_t accepted(const char *call, kz_answer answer) {
    if (answer.status != 0) {
        fprintf(stderr, "judge: %s refused %u sheet %u byte %zu\n", call,
                kz_refusal_number(answer.status), kz_refusal_sheet(answer.status),
                kz_refusal_byte(answer.status));
        exit(1);
    }
    return answer.value;
}

static size_t number(const uint8_t *bytes) { return bytes[0] | (size_t)bytes[1] << 8; }

/* The byte where a sheet's nth group begins, or its length if there is none. */
static size_t group_start(const uint8_t *sheet, size_t length, size_t nth) {
    size_t at = 0, classes = 0;
    while (at < length && (number(sheet + at + 2) != CLASS || classes++ < nth))
        at += number(sheet + at);
    return at;
}

static size_t count_groups(const uint8_t *sheet, size_t length) {
    size_t groups = 0;
    while (group_start(sheet, length, groups) < length) groups++;
    return groups;
}

static void print_row(size_t class_number, const uint8_t *verdict) {
    uint64_t name = accepted("name", kz_name(library, library_len, user, sizeof user, used,
                                             class_number));
    const uint8_t *sheet = kz_name_sheet(name) == 0 ? library : user;
    printf("%zu %.*s %d %d %d\n", class_number, (int)kz_name_length(name),
           (const char *)sheet + kz_name_offset(name), verdict[0], verdict[1], verdict[2]);
}

static void print_rows(size_t first, size_t classes) {
    for (size_t line = 0; line < classes; line++)
        print_row(first + line, verdicts + KZ_VERDICT_BYTES * line);
}

/* Copies the nth group, one of its records made a final int; 0 if that is no field. */
static size_t mended_group(size_t nth, size_t record) {
    size_t start = group_start(user, used, nth);
    size_t length = group_start(user, used, nth + 1) - start, at = 0;
    memcpy(group, user + start, length);
    while (record-- > 0) at += number(group + at);
    if (number(group + at + 2) != FIELD) return 0;
    const uint8_t type[] = {0, INT, 0, 0};
    group[at + 4] = (group[at + 4] & STATIC) | FINAL;
    memcpy(group + at + 6, type, sizeof type);
    return length;
}

/* Takes the last class back out, unless another one names it. */
static void withdraw_last(void) {
    kz_answer withdrawn = kz_withdraw(library, library_len, user, sizeof user, &used, verdicts,
                                      sizeof verdicts);
    if (withdrawn.status == 0)
        printf("withdrawn %u\n", (unsigned)withdrawn.value);
    else
        printf("withdraw refused %u\n", kz_refusal_number(withdrawn.status));
}

int main(int count, char **words) {
    const char *folder = count > 1 ? words[1] : "samples/papers";
    library_len = read_sheet(folder, "library.sheet", library);
    used = read_sheet(folder, "user.sheet", user);
    uint64_t judged = accepted(
        "judge", kz_judge(library, library_len, user, sizeof user, used, verdicts, sizeof verdicts,
                          scratch, sizeof scratch));
    size_t classes = kz_classes(judged), first = count_groups(library, library_len);
    printf("classes %zu faulted %zu\n", classes, kz_faulted(judged));
    print_rows(first, classes);
    for (size_t line = 0; line < classes; line++) {
        const uint8_t *verdict = verdicts + KZ_VERDICT_BYTES * line;
        size_t faulty = verdict[2];
        /* A clean class has 0 here, and a root is a library class. */
        size_t length = faulty >= first ? mended_group(faulty - first, verdict[1]) : 0;
        if (length == 0) continue;
        uint64_t dependents = accepted(
            "replace", kz_replace(library, library_len, user, sizeof user, &used, faulty, group,
                                  length, verdicts, sizeof verdicts, scratch, sizeof scratch));
        printf("replaced %zu dependents %u\n", faulty, (unsigned)dependents);
        print_rows(first, classes);
        break;
    }
    withdraw_last();
    return 0;
}
