/*
 * Null pointers with length 0, as malloc(0), an empty std::vector or an empty slice of Go may hand them over. Each call is made with every
 * combination of null and other pointers at length 0, and answers as stated; a null pointer that is read or written through would end the
 * program. Good C and good C++: scripts/c_tests.sh compiles it as both.
 */
#include "qdesk.h"
#include "qdesk_kinds.h"

#include <inttypes.h>
#include <stdio.h>
#include <string.h>

/* The commands of a tape. Every span begins at 0 and is short. */
#define HEAD(command, kind, end) command, (kind) & 255, (kind) >> 8, 0, 0, 0, 0, end, 0, 0, 0
#define OPEN(kind, end) HEAD(1, kind, end)
#define TOKEN(kind, end) HEAD(2, kind, end)
#define CLOSE 3

/* A call, and what it answers: a refusal of tape or settings, or a layout. */
struct call {
    const char *name;
    const char *text;
    uint64_t width;
    size_t tape_len;
    uint8_t tape[128];
    struct qdesk_answer answer;
    const char *layout;
};

static const struct call calls[] = {
    {"nothing at all", "", 4, 0, {0}, {QDESK_NOT_ONE_ROOT, 0}, ""},
    {"width 17", "", 17, 0, {0}, {QDESK_INDENT_WIDTH, 0}, ""},
    {"a text alone", "a", 4, 0, {0}, {QDESK_NOT_ONE_ROOT, 0}, ""},
    {"a close", "", 4, 1, {CLOSE}, {QDESK_NOT_ONE_ROOT, 0}, ""},
    {"File with no child", "", 4, 12, {OPEN(QDESK_KIND_FILE, 0), CLOSE}, {QDESK_ACCEPTED, 0}, ""},
    {"Error, copied as typed", "", 4, 24, {OPEN(QDESK_KIND_FILE, 0), OPEN(QDESK_KIND_ERROR, 0), CLOSE, CLOSE}, {QDESK_ACCEPTED, 0}, ""},
    {"a word of no bytes", "", 4, 23, {OPEN(QDESK_KIND_COLUMN_REFERENCE, 0), TOKEN(QDESK_KIND_BARE_WORD, 0), CLOSE}, {QDESK_ACCEPTED, 0}, ""},
    {"a word", "a", 4, 23, {OPEN(QDESK_KIND_COLUMN_REFERENCE, 1), TOKEN(QDESK_KIND_BARE_WORD, 1), CLOSE}, {QDESK_ACCEPTED, 2}, "a\n"},
    {"brackets of no bytes",
     "",
     4,
     34,
     {OPEN(QDESK_KIND_SUBQUERY_EXPRESSION, 0), TOKEN(QDESK_KIND_OPENING_ROUND_BRACKET, 0), TOKEN(QDESK_KIND_CLOSING_ROUND_BRACKET, 0), CLOSE},
     {QDESK_ACCEPTED, 5},
     "(\n\n)\n"},
    {"tokens of no bytes",
     "",
     4,
     111,
     {OPEN(QDESK_KIND_SUBQUERY_EXPRESSION, 0), TOKEN(QDESK_KIND_OPENING_ROUND_BRACKET, 0), TOKEN(QDESK_KIND_BARE_WORD, 0), TOKEN(QDESK_KIND_COMMA, 0),
      TOKEN(QDESK_KIND_WHITESPACE, 0), TOKEN(QDESK_KIND_COMMENT, 0), TOKEN(QDESK_KIND_STRING_TOKEN, 0), TOKEN(QDESK_KIND_QUOTED_IDENTIFIER, 0),
      TOKEN(QDESK_KIND_COMMENT, 0), TOKEN(QDESK_KIND_CLOSING_ROUND_BRACKET, 0), CLOSE},
     {QDESK_ACCEPTED, 11},
     "(\n      \n)\n"},
};

static int failures = 0;
static int made = 0;

static int same(struct qdesk_answer a, struct qdesk_answer b)
{
    return a.number == b.number && a.value == b.value;
}

static void expect(const struct call *call, const char *what, struct qdesk_answer answer, struct qdesk_answer expected)
{
    made++;
    if (!same(answer, expected)) {
        failures++;
        printf("%s, %s: answers %" PRIu64 " and %" PRIu64 ", not %" PRIu64 " and %" PRIu64 "\n", call->name, what, answer.number,
               answer.value, expected.number, expected.value);
    }
}

/* The call with these pointers: with an output space that is as long as the layout, and with one of no bytes at `no_out`. */
static void try_pointers(const struct call *call, const uint8_t *text, const uint8_t *tape, uint8_t *no_out)
{
    const size_t text_len = strlen(call->text), tape_len = call->tape_len, layout_len = strlen(call->layout);
    struct qdesk_answer expected = call->answer;
    uint8_t out[16];

    memset(out, 255, sizeof out);
    expect(call, "laid out", qdesk_layout(text, text_len, tape, tape_len, call->width, 1, out, layout_len), expected);
    for (size_t i = 0; i < sizeof out; i++) {
        uint8_t byte = i < layout_len ? (uint8_t)call->layout[i] : 255;
        if (out[i] != byte) {
            failures++;
            printf("%s: byte %d of the output space is %d, not %d\n", call->name, (int)i, out[i], byte);
        }
    }

    if (layout_len > 0) {
        expected.number = QDESK_SPACE_TOO_SHORT;
    }
    expect(call, "laid out in no space", qdesk_layout(text, text_len, tape, tape_len, call->width, 1, no_out, 0), expected);
}

/* The call with each of its pointers that has length 0 null or not. */
static void try_call(const struct call *call)
{
    uint8_t byte = 255;
    for (int nulls = 0; nulls < 8; nulls++) {
        const int no_text = nulls & 1, no_tape = nulls & 2, no_out = nulls & 4;
        if ((no_text && call->text[0] != 0) || (no_tape && call->tape_len != 0)) {
            continue;
        }
        try_pointers(call, no_text ? NULL : (const uint8_t *)call->text, no_tape ? NULL : call->tape, no_out ? NULL : &byte);
    }
    if (byte != 255) {
        failures++;
        printf("%s: a byte is written where the length is 0\n", call->name);
    }
}

int main(void)
{
    for (size_t i = 0; i < sizeof calls / sizeof calls[0]; i++) {
        try_call(&calls[i]);
    }
    if (failures > 0) {
        printf("null pointers: %d failures in %d calls\n", failures, made);
    }
    return failures != 0;
}
