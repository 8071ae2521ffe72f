/*
 * The map call. The calls of vectors/maps.bin are answered as stored there, and leave both spaces as they say, with nothing touched around them.
 * Small calls by hand try both spaces at the needed length and one less, and null pointers with length 0. It is run in the repository's root. Good C and
 * good C++: scripts/c_tests.sh compiles it as both.
 */
#include "qdesk.h"
#include "qdesk_kinds.h"

#include <inttypes.h>
#include <stdio.h>
#include <stdlib.h>
#include <string.h>

#define LIST "vectors/maps.bin"

/* What fills the spaces before a call: no layout has this byte, and no map this number. */
#define BYTE 255
#define NUMBER UINT64_MAX

/* The cells before and after a space that no call may touch. */
#define MARGIN 4

/* What a reader of the list may rely on (vectors/README.md). */
#define MOST_STORED 4096
#define MOST_NUMBERS 4096

static int failures = 0;
static int made = 0;

/* A call, what it answers, and the layout and the map that it writes: both empty where it is refused. */
struct call {
    uint64_t width, case_byte;
    const uint8_t *text, *tape;
    size_t text_len, tape_len, out_len, map_len;
    struct qdesk_answer answer;
    const uint8_t *layout;
    const uint64_t *map;
    size_t layout_len, numbers;
};

static void fails(const char *name, unsigned long record, const char *what)
{
    failures++;
    printf("map: %s %lu: %s\n", name, record, what);
}

/* Makes the call in filled spaces between margins, and holds the answer and every byte and number to what is stated. */
static void try_call(const char *name, unsigned long record, const struct call *call)
{
    static uint8_t bytes[MOST_STORED + 2 * MARGIN];
    static uint64_t numbers[MOST_NUMBERS + 2 * MARGIN];
    struct qdesk_answer answer;
    size_t i;
    made++;
    memset(bytes, BYTE, sizeof bytes);
    memset(numbers, BYTE, sizeof numbers);
    answer = qdesk_layout_map(call->text, call->text_len, call->tape, call->tape_len, call->width, call->case_byte, bytes + MARGIN,
                              call->out_len, numbers + MARGIN, call->map_len);
    if (answer.number != call->answer.number || answer.value != call->answer.value) {
        fails(name, record, "another answer");
        printf("  %" PRIu64 " and %" PRIu64 ", not %" PRIu64 " and %" PRIu64 "\n", answer.number, answer.value, call->answer.number,
               call->answer.value);
    }
    for (i = 0; i < sizeof bytes; i++) {
        uint8_t byte = i >= MARGIN && i < MARGIN + call->layout_len ? call->layout[i - MARGIN] : BYTE;
        if (bytes[i] != byte) {
            fails(name, record, "another byte in or around the output space");
            break;
        }
    }
    for (i = 0; i < sizeof numbers / sizeof numbers[0]; i++) {
        uint64_t number = i >= MARGIN && i < MARGIN + call->numbers ? call->map[i - MARGIN] : NUMBER;
        if (numbers[i] != number) {
            fails(name, record, "another number in or around the map space");
            break;
        }
    }
}

/* The list's bytes, and how far they are read. */
static uint8_t *list = NULL;
static size_t list_len = 0, place = 0;

static void read_list(void)
{
    FILE *file = fopen(LIST, "rb");
    long length = -1;
    if (file != NULL && fseek(file, 0, SEEK_END) == 0 && (length = ftell(file)) > 0) {
        rewind(file);
        list = (uint8_t *)malloc((size_t)length);
        list_len = list == NULL ? 0 : fread(list, 1, (size_t)length, file);
    }
    if (file != NULL) {
        fclose(file);
    }
}

/* The next bytes of the list; a list that is cut short ends the program. */
static const uint8_t *take(uint64_t length)
{
    const uint8_t *bytes = list + place;
    if (length > list_len - place) {
        printf("map: " LIST " is missing or cut short\n");
        exit(1);
    }
    place += (size_t)length;
    return bytes;
}

static uint64_t take_number(void)
{
    const uint8_t *bytes = take(8);
    uint64_t number = 0;
    int i;
    for (i = 7; i >= 0; i--) {
        number = number << 8 | bytes[i];
    }
    return number;
}

/* A length of the list, which is within what a reader may rely on. */
static size_t take_length(uint64_t most)
{
    uint64_t length = take_number();
    if (length > most) {
        printf("map: a length in " LIST " is %" PRIu64 ", above %" PRIu64 "\n", length, most);
        exit(1);
    }
    return (size_t)length;
}

/* The stored bytes and then so many zeros, in this space. */
static const uint8_t *with_zeros(uint8_t *space, size_t stored, size_t zeros)
{
    const uint8_t *bytes = take(stored);
    if (stored > 0) {
        memcpy(space, bytes, stored);
    }
    memset(space + stored, 0, zeros);
    return space;
}

static void replay_record(unsigned long record)
{
    static uint8_t text[MOST_STORED + QDESK_MOST_BYTES + 1], tape[MOST_STORED + QDESK_MOST_BYTES + 1];
    static uint64_t map[MOST_NUMBERS];
    struct call call;
    size_t text_stored, text_zeros, tape_stored, tape_zeros, i;
    call.width = take_number();
    call.case_byte = take_number();
    text_stored = take_length(MOST_STORED);
    text_zeros = take_length(QDESK_MOST_BYTES + 1);
    tape_stored = take_length(MOST_STORED);
    tape_zeros = take_length(QDESK_MOST_BYTES + 1);
    call.out_len = take_length(MOST_STORED);
    call.answer.number = take_number();
    call.answer.value = take_number();
    call.text = with_zeros(text, text_stored, text_zeros);
    call.text_len = text_stored + text_zeros;
    call.tape = with_zeros(tape, tape_stored, tape_zeros);
    call.tape_len = tape_stored + tape_zeros;
    call.layout_len = call.answer.number == QDESK_ACCEPTED ? (size_t)call.answer.value : 0;
    call.layout = take(call.layout_len);
    call.map_len = take_length(MOST_NUMBERS);
    call.numbers = take_length(call.map_len);
    for (i = 0; i < call.numbers; i++) {
        map[i] = take_number();
    }
    call.map = map;
    try_call("record", record, &call);
}

static unsigned long replay_list(void)
{
    unsigned long records, record;
    read_list();
    records = (unsigned long)take_number();
    for (record = 0; record < records; record++) {
        replay_record(record);
    }
    if (place != list_len) {
        fails("the list", records, "bytes after the last record");
    }
    free(list);
    return records;
}

/* `select 7`: a SelectClause with the word, white space, and a ColumnList that holds the number. */
static const uint8_t tape[] = {
    1, QDESK_KIND_SELECT_CLAUSE & 255, QDESK_KIND_SELECT_CLAUSE >> 8, 0, 0, 0, 0, 8, 0, 0, 0,
    2, QDESK_KIND_BARE_WORD & 255, QDESK_KIND_BARE_WORD >> 8, 0, 0, 0, 0, 6, 0, 0, 0,
    2, QDESK_KIND_WHITESPACE & 255, QDESK_KIND_WHITESPACE >> 8, 6, 0, 0, 0, 7, 0, 0, 0,
    1, QDESK_KIND_COLUMN_LIST & 255, QDESK_KIND_COLUMN_LIST >> 8, 7, 0, 0, 0, 8, 0, 0, 0,
    2, QDESK_KIND_NUMBER & 255, QDESK_KIND_NUMBER >> 8, 7, 0, 0, 0, 8, 0, 0, 0,
    3, 3};

/* A File with no child. */
static const uint8_t no_tokens[] = {1, QDESK_KIND_FILE, 0, 0, 0, 0, 0, 0, 0, 0, 0, 3};

/* The call on `select 7` in spaces of these lengths. */
static void try_spaces(const char *name, size_t out_len, size_t map_len, uint64_t number, uint64_t value)
{
    static const uint64_t map[] = {1, 1, 0, 0, 2, 5};
    struct call call = {4, 1, NULL, tape, 8, sizeof tape, 0, 0, {0, 0}, NULL, map, 0, 0};
    call.text = (const uint8_t *)"select 7";
    call.layout = (const uint8_t *)"SELECT\n    7\n";
    call.out_len = out_len;
    call.map_len = map_len;
    call.answer.number = number;
    call.answer.value = value;
    call.layout_len = number == QDESK_ACCEPTED ? 13 : 0;
    call.numbers = number == QDESK_ACCEPTED ? 6 : 0;
    try_call(name, 0, &call);
}

static void expect(const char *name, struct qdesk_answer answer, uint64_t number, uint64_t value)
{
    made++;
    if (answer.number != number || answer.value != value) {
        fails(name, 0, "another answer");
    }
}

/* Null pointers with length 0 are neither read nor written through. */
static void try_nulls(void)
{
    uint64_t number = NUMBER;
    uint8_t byte = BYTE;
    const uint8_t *text = (const uint8_t *)"select 7";
    expect("all null", qdesk_layout_map(NULL, 0, NULL, 0, 4, 1, NULL, 0, NULL, 0), QDESK_NOT_ONE_ROOT, 0);
    expect("no tokens", qdesk_layout_map(NULL, 0, no_tokens, sizeof no_tokens, 4, 1, NULL, 0, NULL, 0), QDESK_ACCEPTED, 0);
    expect("no tokens, a space", qdesk_layout_map(NULL, 0, no_tokens, sizeof no_tokens, 4, 1, &byte, 1, &number, 1), QDESK_ACCEPTED, 0);
    expect("no space", qdesk_layout_map(text, 8, tape, sizeof tape, 4, 1, NULL, 0, NULL, 0), QDESK_SPACE_TOO_SHORT, 13);
    if (byte != BYTE || number != NUMBER) {
        fails("no tokens, a space", 0, "a space is written to");
    }
}

int main(void)
{
    unsigned long records;
    try_spaces("exact spaces", 13, 6, QDESK_ACCEPTED, 13);
    try_spaces("longer spaces", 18, 11, QDESK_ACCEPTED, 13);
    try_spaces("a byte less", 12, 6, QDESK_SPACE_TOO_SHORT, 13);
    try_spaces("a number less", 13, 5, QDESK_MAP_TOO_SHORT, 6);
    try_spaces("no numbers", 13, 0, QDESK_MAP_TOO_SHORT, 6);
    try_spaces("both less", 12, 5, QDESK_SPACE_TOO_SHORT, 13);
    try_nulls();
    records = replay_list();
    printf("map: %d calls, %lu of them stored, %d failures\n", made, records, failures);
    return records == 0 || failures > 0;
}
