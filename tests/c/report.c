/*
 * The report over a book: what is put, the tally and the working space afterwards, for small books, spaces that are too short, null pointers and
 * the limits. Good C and good C++: scripts/c_tests.sh compiles it as both.
 */
#include "qdesk.h"
#include "qdesk_kinds.h"

#include <stdio.h>
#include <string.h>

/* A job: width 4, upper case, the text `a` in a ColumnReference, whose layout has two bytes; one with a close alone, refused with 12 at 0. */
#define HEAD(command, kind) command, (kind) & 255, (kind) >> 8, 0, 0, 0, 0, 1, 0, 0, 0
#define WORD 16, 4, 17, 1, 18, 1, 0, 0, 0, 'a', HEAD(1, QDESK_KIND_COLUMN_REFERENCE), HEAD(2, QDESK_KIND_BARE_WORD), 3
#define CLOSE 16, 4, 17, 1, 18, 0, 0, 0, 0, 3
#define WORD_LEN 33
#define CLOSE_LEN 10
#define JOB(len) 32, len, 0, 0, 0

static const uint8_t book[] = {JOB(WORD_LEN), WORD, JOB(CLOSE_LEN), CLOSE, JOB(0), JOB(WORD_LEN), WORD};
static const char report[] =
    "1 bytes 2 lines 1\n2 refused 12 at 0\n3 refused 14 at 0\n4 bytes 2 lines 1\ntotal jobs 4 refused 2 bytes 4 lines 2\n";

static const struct qdesk_tally held = {UINT64_MAX, 7, UINT64_MAX - 1, 9};
static const struct qdesk_tally zeros = {0, 0, 0, 0};
static uint8_t work[QDESK_WORK];
static uint8_t out[QDESK_MOST_REPORT];

static int failures = 0;
static int made = 0;

static void check(int holds, const char *what, const char *detail)
{
    if (!holds) {
        failures++;
        printf("report: %s: %s\n", what, detail);
    }
}

static int filled(const uint8_t *bytes, size_t length)
{
    for (size_t i = 0; i < length; i++) {
        if (bytes[i] != 255) {
            return 0;
        }
    }
    return 1;
}

/* The call in a space of `out_len` bytes at `space`: it puts as much of the line as there is room for, and tallies so. */
static void expect(const char *what, const uint8_t *bytes, size_t length, uint64_t more, uint8_t *space, size_t out_len, const char *lines,
                   struct qdesk_tally tallied)
{
    struct qdesk_tally tally = held;
    size_t put, due = strlen(lines) < out_len ? strlen(lines) : out_len;
    made++;
    memset(work, 255, sizeof work);
    memset(out, 255, sizeof out);
    put = qdesk_report(bytes, length, more, &tally, work, space, out_len);
    check(put == due, what, "how many bytes are put");
    check(memcmp(out, lines, due) == 0, what, "what is put");
    check(filled(out + due, sizeof out - due), what, "bytes behind what is put");
    check(memcmp(&tally, &tallied, sizeof tally) == 0, what, "the tally");
}

static void expect_refused(const char *what, const uint8_t *bytes, size_t length, uint64_t more, const char *line)
{
    expect(what, bytes, length, more, out, sizeof out, line, held);
    check(filled(work, sizeof work), what, "the working space of a refused book");
}

static void small_books(void)
{
    const struct qdesk_tally tallied = {4, 2, 4, 2};
    size_t room;
    for (room = 0; room <= sizeof report + 5; room++) {
        expect("a book", book, sizeof book, 0, out, room, report, tallied);
        check(work[0] == 'a' && work[1] == '\n' && filled(work + 2, sizeof work - 2), "a book", "the working space");
    }
    expect("an empty book", book, 0, 0, out, sizeof out, "total jobs 0 refused 0 bytes 0 lines 0\n", zeros);
    expect("null pointers", NULL, 0, 0, NULL, 0, "total jobs 0 refused 0 bytes 0 lines 0\n", zeros);
    expect("a null pointer for no space", book, sizeof book, 0, NULL, 0, report, tallied);
}

static void refused_books(void)
{
    static uint8_t zero[QDESK_MOST_BOOK + 1];
    static uint8_t jobs[5 * (QDESK_MOST_JOBS + 1)];
    size_t job;
    expect_refused("a cut command", book, sizeof book - 1, 0, "refused 18 at 58\n");
    expect_refused("a wrong command", book + 1, sizeof book - 1, 0, "refused 18 at 0\n");
    expect_refused("more follows", book, sizeof book, 1, "refused 18 at 65536\n");
    expect_refused("more follows, by another number", book, 0, (uint64_t)1 << 40, "refused 18 at 65536\n");
    expect_refused("the most bytes", zero, QDESK_MOST_BOOK, 0, "refused 18 at 0\n");
    expect_refused("one byte more", zero, QDESK_MOST_BOOK + 1, 0, "refused 18 at 65536\n");
    for (job = 0; job <= QDESK_MOST_JOBS; job++) {
        jobs[5 * job] = 32;
    }
    expect_refused("a 257th job", jobs, sizeof jobs, 0, "refused 19 at 1280\n");
    expect_refused("a 257th command that is cut", jobs, sizeof jobs - 1, 0, "refused 18 at 1280\n");
    {
        struct qdesk_tally tally = held;
        size_t put = qdesk_report(jobs, sizeof jobs - 5, 0, &tally, work, out, sizeof out);
        made++;
        check(tally.jobs == QDESK_MOST_JOBS && tally.refused == QDESK_MOST_JOBS, "the most jobs", "the tally");
        check(put > 22 && memcmp(out, "1 refused 14 at 0\n", 18) == 0, "the most jobs", "the first line");
    }
}

int main(void)
{
    small_books();
    refused_books();
    printf("report: %d calls, %d failures\n", made, failures);
    return failures != 0;
}
