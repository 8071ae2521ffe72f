/*
 * Measures and lays out `select a,b from t` from a tape that is spelt by hand, says where its tokens stand, and shows two refusals. Good C and
 * good C++: scripts/c_example.sh compiles it as both and holds what it prints to layout.out.
 */
#include "qdesk.h"
#include "qdesk_kinds.h"

#include <inttypes.h>
#include <stdio.h>
#include <stdlib.h>
#include <string.h>

enum command { OPEN = 1, TOKEN = 2, CLOSE = 3 };

struct tape {
    uint8_t bytes[256];
    size_t length;
};

/* Adds a number of so many bytes, low byte first. */
static void put(struct tape *tape, uint32_t number, size_t count)
{
    if (count > sizeof tape->bytes - tape->length) {
        fputs("layout: the tape is full\n", stderr);
        exit(1);
    }
    for (size_t i = 0; i < count; i++) {
        tape->bytes[tape->length++] = (uint8_t)(number >> (8 * i));
    }
}

/* Adds a command that has a kind and a span. */
static void put_span(struct tape *tape, enum command command, enum qdesk_kind kind, uint32_t start, uint32_t end)
{
    put(tape, command, 1);
    put(tape, kind, 2);
    put(tape, start, 4);
    put(tape, end, 4);
}

static void put_close(struct tape *tape)
{
    put(tape, CLOSE, 1);
}

/* Adds a node that holds one word. */
static void put_name(struct tape *tape, enum qdesk_kind kind, uint32_t start, uint32_t end)
{
    put_span(tape, OPEN, kind, start, end);
    put_span(tape, TOKEN, QDESK_KIND_BARE_WORD, start, end);
    put_close(tape);
}

/* Spells the tree that a parser makes of `select a,b from t`. */
static void put_query(struct tape *tape)
{
    put_span(tape, OPEN, QDESK_KIND_FILE, 0, 17);
    put_span(tape, OPEN, QDESK_KIND_SELECT_STATEMENT, 0, 17);
    put_span(tape, OPEN, QDESK_KIND_SELECT_CLAUSE, 0, 10);
    put_span(tape, TOKEN, QDESK_KIND_BARE_WORD, 0, 6);
    put_span(tape, TOKEN, QDESK_KIND_WHITESPACE, 6, 7);
    put_span(tape, OPEN, QDESK_KIND_COLUMN_LIST, 7, 10);
    put_name(tape, QDESK_KIND_COLUMN_REFERENCE, 7, 8);
    put_span(tape, TOKEN, QDESK_KIND_COMMA, 8, 9);
    put_name(tape, QDESK_KIND_COLUMN_REFERENCE, 9, 10);
    put_close(tape);
    put_close(tape);
    put_span(tape, TOKEN, QDESK_KIND_WHITESPACE, 10, 11);
    put_span(tape, OPEN, QDESK_KIND_FROM_CLAUSE, 11, 17);
    put_span(tape, TOKEN, QDESK_KIND_BARE_WORD, 11, 15);
    put_span(tape, TOKEN, QDESK_KIND_WHITESPACE, 15, 16);
    put_name(tape, QDESK_KIND_TABLE_IDENTIFIER, 16, 17);
    put_close(tape);
    put_close(tape);
    put_close(tape);
}

/* Lays out at width 4, keywords in capitals. */
static struct qdesk_answer lay_out(const char *query, const struct tape *tape, uint8_t *out, size_t out_len)
{
    return qdesk_layout((const uint8_t *)query, strlen(query), tape->bytes, tape->length, 4, 1, out, out_len);
}

static void print_answer(const char *call, struct qdesk_answer answer)
{
    if (answer.number == QDESK_ACCEPTED) {
        printf("%s: accepted, %" PRIu64 " bytes\n", call, answer.value);
    } else if (answer.number == QDESK_SPACE_TOO_SHORT) {
        printf("%s: refused (13), %" PRIu64 " bytes are needed\n", call, answer.value);
    } else {
        printf("%s: %s (%" PRIu64 ") at %" PRIu64 "\n", call, qdesk_number_name(answer.number), answer.number, answer.value);
    }
}

/* Measures, which is to lay out in no space, then lends as much space as is needed. */
static void print_layout(const char *query, const struct tape *tape)
{
    struct qdesk_answer answer = lay_out(query, tape, NULL, 0);
    print_answer("in no space", answer);
    if (answer.number != QDESK_SPACE_TOO_SHORT) {
        return; /* another refusal; or an empty layout, which is done */
    }
    uint8_t *out = (uint8_t *)malloc(answer.value);
    if (out == NULL) {
        fputs("layout: no memory\n", stderr);
        exit(1);
    }
    answer = lay_out(query, tape, out, answer.value);
    print_answer("in as many bytes", answer);
    putchar('\n');
    fwrite(out, 1, answer.value, stdout);
    putchar('\n');
    free(out);
}

/* Lays out with a map, and prints where each token stands. */
static void print_places(const char *query, const struct tape *tape)
{
    enum { TOKENS = 9 };
    uint8_t out[64];
    uint64_t map[2 * TOKENS];
    struct qdesk_answer answer = qdesk_layout_map((const uint8_t *)query, strlen(query), tape->bytes, tape->length, 4, 1, out, sizeof out, map,
                                                  2 * TOKENS);
    print_answer("with a map", answer);
    for (int i = 0; answer.number == QDESK_ACCEPTED && i < TOKENS; i++) {
        if (map[2 * i] == 0) {
            printf("token %d: no place\n", i + 1);
        } else {
            printf("token %d: line %" PRIu64 ", column %" PRIu64 "\n", i + 1, map[2 * i], map[2 * i + 1]);
        }
    }
    putchar('\n');
}

int main(void)
{
    const char *query = "select a,b from t";
    struct tape tape = {{0}, 0};
    uint8_t short_space[26];
    put_query(&tape);
    printf("%s\n\n", query);
    print_layout(query, &tape);
    print_places(query, &tape);

    print_answer("in 26 bytes", lay_out(query, &tape, short_space, sizeof short_space));
    tape.length -= 1;
    print_answer("without the root's close", lay_out(query, &tape, NULL, 0));
    if (fflush(stdout) != 0 || ferror(stdout)) {
        perror("layout");
        return 1;
    }
    return 0;
}
