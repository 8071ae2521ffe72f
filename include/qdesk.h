/*
 * Lays out a ClickHouse query, one clause to a line, from its text and its syntax tree, tells the sorts of word apart, and reports on
 * books of saved queries: the C interface of libqdesk.a, which `sh scripts/static_libraries.sh` writes to target/staticlib, for Linux on x86-64.
 *
 * What goes in
 *
 *   text, text_len   the query: at most 262,144 bytes of well-formed UTF-8
 *   tape, tape_len   its syntax tree: at most 262,144 bytes of commands, their operands low byte first
 *                      01 opens a node: kind (2 bytes), start (4), end (4)
 *                      02 is a token: the same operands
 *                      03 closes the innermost open node
 *                    with one root node, and at most 64 nodes open at once. Start and end are offsets in the text, in bytes, and inside
 *                    no character: a token's text is from start up to, not including, end. Tokens of kind BareWord are ASCII. A kind's
 *                    number is its place in clickhouse-analyzer's SyntaxKind, from 0 (qdesk_kinds.h has them all by name)
 *   width            blanks for each level of indent, 0 to 16
 *   case_byte        the case of keywords, 0 lower or 1 upper
 *   out, out_len     the output space, of any length; with 0 bytes the call measures
 *
 * Nothing of this is asked beforehand: the call checks it, and what is wrong is refused. The caller answers for the memory alone:
 *
 *   - each pointer is valid for its length; at length 0 it may be null, since nothing is read or written through it
 *   - `out` overlaps neither `text` nor `tape`; during the call nobody else touches `out` or writes to the other two
 *
 * What comes out
 *
 * For each input there is one answer, and it is proved that the call gives it (docs/PROOFS.md): 0 and the length of the layout, or the
 * number of a refusal and its place. The layout ends in a newline unless it is empty, and has no 0 byte after it.
 *
 *   - An accepted layout of length L is in the first L bytes of `out`. Later bytes stay as they were.
 *   - A refusal writes no byte.
 *   - Where the space is too short, 13 gives the needed length: on one input it is the same whatever the space, and the same as that of an
 *     accepted layout.
 *
 * How to measure: pass null and 0 for `out` and `out_len`. Then the answer is 13 and the needed length, or 0 and 0 for a layout that needs no
 * byte, or another refusal. Nothing is written, which takes less time than laying out. Who has space at hand need not measure first: a call that
 * is answered 13 is made again with as much as it asks for.
 *
 * A call takes time in proportion to the lengths of text and tape where tokens do not overlap, as a parser's never do. Where they do, the
 * lengths of the tokens and of the nodes copied as typed add up, to seconds at the limits, and a layout can ask for gigabytes. Who takes tapes from
 * strangers adds up the lengths of all spans first and refuses more than QDESK_MOST_OPEN + 1 times the text's length, which no tree
 * without overlapping siblings has; then measures, and refuses what is too long.
 *
 * The calls use no heap and keep no state: any number of threads may make them at once. They take about 40 KB of stack, and less than 1 KB
 * more for each of at most 64 nested nodes: 128 KiB are enough (by tests, not by proof).
 */
#ifndef QDESK_H
#define QDESK_H

#include <stddef.h>
#include <stdint.h>

#ifdef __cplusplus
extern "C" {
#endif

#define QDESK_VERSION "0.1.0"

/* The limits: bytes of a text and of a tape, nodes open at once, blanks for each level; bytes and jobs of a book. */
#define QDESK_MOST_BYTES 262144
#define QDESK_MOST_OPEN 64
#define QDESK_MOST_WIDTH 16
#define QDESK_MOST_BOOK 65536
#define QDESK_MOST_JOBS 256

/* Bytes of a report's working space; bytes that every report fits in (a line for a job has at most 39, the last one 57). */
#define QDESK_WORK 65536
#define QDESK_MOST_REPORT 16384

struct qdesk_answer {
    uint64_t number; /* one of enum qdesk_number; of qdesk_word, one of enum qdesk_sort */
    uint64_t value;  /* a length or a place, as stands there; 0 where nothing does */
};

/*
 * 1 to 5 are tried in that order. Then the tape is read from its start, and the first faulty command decides; within one, the order is
 * 6, 7, 12, 8, 9, 10, 15, 16, 11. 13 comes last, and 17 after it. The value of 6 to 12, 15 and 16 is the faulty command's offset in the
 * tape. 14 is the desk's program's own: no call answers it. 18 and 19 are numbers of a report's line, and no call answers them.
 */
enum qdesk_number {
    QDESK_ACCEPTED = 0,         /* value: the layout's length */
    QDESK_INDENT_WIDTH = 1,     /* width above 16 */
    QDESK_CASE_BYTE = 2,        /* case byte above 1 */
    QDESK_TEXT_TOO_LONG = 3,    /* text above 262,144 bytes */
    QDESK_NOT_UTF8 = 4,         /* text that is not well-formed UTF-8; value: the offset in the text of the first byte that isn't part
                                   of a well-formed character */
    QDESK_TAPE_TOO_LONG = 5,    /* tape above 262,144 bytes */
    QDESK_UNKNOWN_COMMAND = 6,  /* command not 01 to 03 */
    QDESK_CUT_COMMAND = 7,      /* command cut by the tape's end */
    QDESK_UNKNOWN_KIND = 8,     /* kind number past the last kind */
    QDESK_KIND_NOT_CARRIED = 9, /* node of a kind that is not carried */
    QDESK_SPAN_OUTSIDE = 10,    /* token with start above end; token, or node with start not above end, whose end passes the text */
    QDESK_TOO_DEEP = 11,        /* a 65th node opened */
    QDESK_NOT_ONE_ROOT = 12,    /* token or close with no node open; any command after the root's close; tape ends with no finished
                                   root (value: the tape's length) */
    QDESK_SPACE_TOO_SHORT = 13, /* output space below the needed length; value: the needed length */
    QDESK_SPAN_INSIDE_CHARACTER = 15, /* token, or node with start not above end, that starts or ends inside a character */
    QDESK_WORD_NOT_ASCII = 16,  /* token of kind BareWord with a byte above 127 */
    QDESK_MAP_TOO_SHORT = 17,   /* map space below two numbers per token (qdesk_layout_map only);
                                   value: the count of numbers needed */
    QDESK_BOOK_COMMAND = 18,    /* book command wrong or cut short, a job's length past the book's end among them (place: its offset), or
                                   book above 65,536 bytes (place: 65536) */
    QDESK_TOO_MANY_JOBS = 19    /* a 257th job (place: its command's offset) */
};

/* The name of a number, as "QDESK_SPAN_OUTSIDE" for 10; null for one that has no name above. */
static inline const char *qdesk_number_name(uint64_t number)
{
#define QDESK_NAME(name) \
    case name:           \
        return #name
    switch (number) {
        QDESK_NAME(QDESK_ACCEPTED);
        QDESK_NAME(QDESK_INDENT_WIDTH);
        QDESK_NAME(QDESK_CASE_BYTE);
        QDESK_NAME(QDESK_TEXT_TOO_LONG);
        QDESK_NAME(QDESK_NOT_UTF8);
        QDESK_NAME(QDESK_TAPE_TOO_LONG);
        QDESK_NAME(QDESK_UNKNOWN_COMMAND);
        QDESK_NAME(QDESK_CUT_COMMAND);
        QDESK_NAME(QDESK_UNKNOWN_KIND);
        QDESK_NAME(QDESK_KIND_NOT_CARRIED);
        QDESK_NAME(QDESK_SPAN_OUTSIDE);
        QDESK_NAME(QDESK_TOO_DEEP);
        QDESK_NAME(QDESK_NOT_ONE_ROOT);
        QDESK_NAME(QDESK_SPACE_TOO_SHORT);
        QDESK_NAME(QDESK_SPAN_INSIDE_CHARACTER);
        QDESK_NAME(QDESK_WORD_NOT_ASCII);
        QDESK_NAME(QDESK_MAP_TOO_SHORT);
        QDESK_NAME(QDESK_BOOK_COMMAND);
        QDESK_NAME(QDESK_TOO_MANY_JOBS);
    default:
        return NULL;
    }
#undef QDESK_NAME
}

/* The layout in `out`, and its length; or a refusal, of which 13 gives the length that is needed. */
struct qdesk_answer qdesk_layout(const uint8_t *text, size_t text_len, const uint8_t *tape, size_t tape_len, uint64_t width,
                                 uint64_t case_byte, uint8_t *out, size_t out_len);

/*
 * Lays out as qdesk_layout does, and writes a map to `map`: for every token of the tape, in order, two numbers, the output line and column of
 * its first byte, both from 1, columns in bytes. A fixed sign written for a token counts as its byte. A token that isn't written, lies below a
 * node copied as typed, has empty text, or loses all its bytes to trimming gets 0 and 0.
 *
 *   map, map_len     the map space; map_len counts numbers, not bytes, and is at least two per token
 *
 * The answer is 0 and the layout's length, or a refusal. Numbers of `map` past the last token's stay as they were. A refusal leaves both spaces as
 * they were; 17 is tried after 13. The caller answers for `map` as for `out`: it is valid for its length, aligned for uint64_t, and overlaps
 * neither `out` nor what is read; at map_len 0, which is enough for a tape without tokens, it may be null.
 */
struct qdesk_answer qdesk_layout_map(const uint8_t *text, size_t text_len, const uint8_t *tape, size_t tape_len, uint64_t width,
                                     uint64_t case_byte, uint8_t *out, size_t out_len, uint64_t *map, size_t map_len);

/* The sorts of word. The list is clickhouse-analyzer's KEYWORDS; a place in it counts from 0. */
enum qdesk_sort {
    QDESK_SORT_PLAIN = 0,  /* a word that is on the list in no case of its letters; value: 0 */
    QDESK_SORT_VALUE = 1,  /* TRUE, FALSE or NULL, in any case; value: its place in the list */
    QDESK_SORT_KEYWORD = 2 /* any other word of the list, in any case; value: its place in the list */
};

/*
 * Which sort a word is, and its place in the list: the first, if it stood there twice. Any bytes are answered, and none refused; a byte
 * above 127 is no letter, so that a word with one is plain. The caller answers for the pointer as above: it is valid for the length, and at
 * length 0 it may be null.
 */
struct qdesk_answer qdesk_word(const uint8_t *word, size_t word_len);

/* What a report adds up. */
struct qdesk_tally {
    uint64_t jobs;    /* all jobs */
    uint64_t refused; /* the jobs that are refused */
    uint64_t bytes;   /* the bytes of all layouts */
    uint64_t lines;   /* the newlines of all layouts */
};

/*
 * The report over a book of saved queries. A book is command 20 (hexadecimal), a length in 4 bytes, low byte first, and a job of that length,
 * over and over; a job is what the desk's program reads: 10 and the width (1 byte), 11 and the case (1 byte), 12 and the text's length (4
 * bytes, low byte first), the text, and the tape to its end.
 *
 *   more     not 0: the book goes on after these bytes, so that it is too long
 *   tally    set to zeros, whatever it held, and raised for each job; a refused book leaves it as it was
 *   work     QDESK_WORK bytes, in which each job is laid out, an accepted one over the front of the one before it
 *   out      gets the report, as far as there is room: QDESK_MOST_REPORT bytes are enough. Later bytes stay as they were
 *
 * The answer is how many bytes are put into `out`. Each line ends in a newline: for job N from 1 `N bytes B lines L` or `N refused R at P`, as the
 * desk's program answers it (14 for a header that is not whole, 13 for a layout above 65,536 bytes); then
 * `total jobs J refused K bytes S lines T`, the tally's numbers. A book that is refused has the one line `refused N at P`, N 18 or 19: first
 * its length is tried, then its commands from the start, before any job is answered; the first faulty one decides, and there 18 comes
 * before 19. Such a line begins with `r`, a report with a digit or `t`.
 *
 * The caller answers for the pointers as above: `book` and `out` are valid for their lengths, `tally` and `work` for what is said here, and
 * none of the last three overlaps another or the book.
 */
size_t qdesk_report(const uint8_t *book, size_t book_len, uint64_t more, struct qdesk_tally *tally, uint8_t *work, uint8_t *out,
                    size_t out_len);

#ifdef __cplusplus
}
#endif

#endif
