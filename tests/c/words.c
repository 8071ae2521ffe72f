/*
 * The sorts of word: the words of vectors/words.txt are answered as stored there, and a null pointer with length 0 is a plain word. It is
 * run in the repository's root. Good C and good C++: scripts/c_tests.sh compiles it as both.
 */
#include "qdesk.h"

#include <ctype.h>
#include <inttypes.h>
#include <stdio.h>
#include <stdlib.h>
#include <string.h>

#define LIST "vectors/words.txt"

/* Longer than any line of the list. */
#define MOST_LINE 8192

static int failures = 0;
static int made = 0;

static void expect(const char *what, struct qdesk_answer answer, uint64_t number, uint64_t value)
{
    made++;
    if (answer.number != number || answer.value != value) {
        failures++;
        printf("words: %s: answers %" PRIu64 " and %" PRIu64 ", not %" PRIu64 " and %" PRIu64 "\n", what, answer.number, answer.value,
               number, value);
    }
}

static void expect_word(const char *word, uint64_t number, uint64_t value)
{
    expect(word, qdesk_word((const uint8_t *)word, strlen(word)), number, value);
}

/* The byte that an escape names, or -1 where it is none. */
static int escaped(const char *text)
{
    char digits[3] = {0, 0, 0};
    if (text[0] != 'x' || !isxdigit((unsigned char)text[1]) || !isxdigit((unsigned char)text[2])) {
        return -1;
    }
    memcpy(digits, text + 1, 2);
    return (int)strtol(digits, NULL, 16);
}

/* The bytes of a word in quotes to `word`. What stands behind it in the line, or null where it is no such word. */
static const char *read_word(const char *text, uint8_t *word, size_t *length)
{
    *length = 0;
    if (*text++ != '"') {
        return NULL;
    }
    while (*text != '"') {
        int byte = (uint8_t)*text++;
        if (byte == '\\') {
            byte = escaped(text);
            text += byte < 0 ? 0 : 3;
        } else if (byte == 0) {
            byte = -1;
        }
        if (byte < 0) {
            return NULL;
        }
        word[(*length)++] = (uint8_t)byte;
    }
    return text + 1;
}

/* One line of the list; whether it is one. */
static int replay(const char *line)
{
    static uint8_t word[MOST_LINE];
    uint64_t number, value;
    size_t length;
    int start = 0;
    const char *end;
    if (sscanf(line, "%" SCNu64 " %" SCNu64 " %n", &number, &value, &start) != 2 || start == 0) {
        return 0;
    }
    end = read_word(line + start, word, &length);
    if (end == NULL || *end != 0) {
        return 0;
    }
    expect(line, qdesk_word(word, length), number, value);
    return 1;
}

static int replay_list(void)
{
    static char line[MOST_LINE];
    FILE *list = fopen(LIST, "r");
    int lines = 0;
    if (list == NULL) {
        failures++;
        printf("words: no " LIST "\n");
        return 0;
    }
    while (fgets(line, sizeof line, list) != NULL) {
        line[strcspn(line, "\n")] = 0;
        if (line[0] == '#') {
            continue;
        }
        lines++;
        if (!replay(line)) {
            failures++;
            printf("words: not a line of a list: %s\n", line);
        }
    }
    fclose(list);
    return lines;
}

int main(void)
{
    const uint8_t byte = 'A';
    int lines = replay_list();
    expect("a null pointer", qdesk_word(NULL, 0), QDESK_SORT_PLAIN, 0);
    expect("another pointer with length 0", qdesk_word(&byte, 0), QDESK_SORT_PLAIN, 0);
    expect_word("select", QDESK_SORT_KEYWORD, 0);
    expect_word("Null", QDESK_SORT_VALUE, 97);
    expect_word("device", QDESK_SORT_PLAIN, 0);
    printf("words: %d calls and %d stored words, %d failures\n", made, lines, failures);
    return lines == 0 || failures > 0;
}
