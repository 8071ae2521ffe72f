/*
 * The kinds and answers by name: the library refuses the nodes that qdesk_kinds.h says it does, the numbers that it knows have names, and
 * the limits are its own. Good C and good C++: scripts/c_tests.sh compiles it as both.
 */
#include "qdesk.h"
#include "qdesk_kinds.h"

#include <stdio.h>
#include <string.h>

static int faults = 0;

static void check(int holds, const char *what, unsigned long number)
{
    if (!holds) {
        printf("names: %s: %lu\n", what, number);
        faults++;
    }
}

/* The number that is answered for this input in no space. */
static uint64_t answered(const uint8_t *text, size_t text_len, const uint8_t *tape, size_t tape_len, uint64_t width)
{
    return qdesk_layout(text, text_len, tape, tape_len, width, 1, NULL, 0).number;
}

/* The same for a node of this kind, alone over an empty text. */
static uint64_t kind_answered(unsigned kind)
{
    uint8_t tape[12] = {1, 0, 0, 0, 0, 0, 0, 0, 0, 0, 0, 3};
    tape[1] = (uint8_t)(kind & 255);
    tape[2] = (uint8_t)(kind >> 8);
    return answered(NULL, 0, tape, sizeof tape, 4);
}

static void check_kinds(void)
{
    unsigned kind;
    for (kind = 0; kind < QDESK_KINDS; kind++) {
        uint64_t number = qdesk_kind_is_carried(kind) ? QDESK_ACCEPTED : QDESK_KIND_NOT_CARRIED;
        check(kind_answered(kind) == number, "a kind is carried or not as the header says", kind);
    }
    check(kind_answered(QDESK_KINDS) == QDESK_UNKNOWN_KIND, "no kind is past the last", QDESK_KINDS);
    check(!qdesk_kind_is_carried(QDESK_KINDS), "no kind past the last is carried", QDESK_KINDS);
    check(QDESK_KIND_BARE_WORD == 211, "BareWord", QDESK_KIND_BARE_WORD);
}

static void check_names(void)
{
    unsigned long number;
    for (number = 0; number <= QDESK_TOO_MANY_JOBS + 1; number++) {
        const char *name = qdesk_number_name(number);
        int known = number != 14 && number <= QDESK_TOO_MANY_JOBS;
        check((name != NULL) == known, "a number has a name", number);
    }
    check(strcmp(qdesk_number_name(QDESK_SPAN_OUTSIDE), "QDESK_SPAN_OUTSIDE") == 0, "the name of 10", 10);
}

static void check_limits(void)
{
    static uint8_t blanks[QDESK_MOST_BYTES + 1];
    uint8_t tape[12 * (QDESK_MOST_OPEN + 1)] = {0};
    size_t open;
    check(answered(NULL, 0, NULL, 0, QDESK_MOST_WIDTH) == QDESK_NOT_ONE_ROOT, "the most width", QDESK_MOST_WIDTH);
    check(answered(NULL, 0, NULL, 0, QDESK_MOST_WIDTH + 1) == QDESK_INDENT_WIDTH, "one more", QDESK_MOST_WIDTH);
    check(answered(blanks, QDESK_MOST_BYTES, NULL, 0, 4) == QDESK_NOT_ONE_ROOT, "the longest text", QDESK_MOST_BYTES);
    check(answered(blanks, QDESK_MOST_BYTES + 1, NULL, 0, 4) == QDESK_TEXT_TOO_LONG, "one more", QDESK_MOST_BYTES);
    check(answered(NULL, 0, blanks, QDESK_MOST_BYTES, 4) == QDESK_UNKNOWN_COMMAND, "the longest tape", QDESK_MOST_BYTES);
    check(answered(NULL, 0, blanks, QDESK_MOST_BYTES + 1, 4) == QDESK_TAPE_TOO_LONG, "one more", QDESK_MOST_BYTES);
    for (open = 0; open < QDESK_MOST_OPEN + 1; open++) {
        tape[11 * open] = 1;
        tape[11 * open + 1] = QDESK_KIND_FILE;
    }
    check(answered(NULL, 0, tape, 11 * (QDESK_MOST_OPEN + 1), 4) == QDESK_TOO_DEEP, "one node more", QDESK_MOST_OPEN);
    memset(tape + 11 * QDESK_MOST_OPEN, 3, QDESK_MOST_OPEN);
    check(answered(NULL, 0, tape, 12 * QDESK_MOST_OPEN, 4) == QDESK_ACCEPTED, "the most nodes", QDESK_MOST_OPEN);
}

int main(void)
{
    check_kinds();
    check_names();
    check_limits();
    return faults != 0;
}
