/* Makes the calls that it reads, one to a line, and prints what each gave, for a comparison:
 *
 *     open UNITS HEADER
 *     offer STREAM KIND PERIOD MIN MAX LIFE
 *     withdraw STREAM
 *     enquire STREAM
 *     beacon WORDS SEED                          lends so many words, filled from the seed
 *     window COUNT FROM UNTIL [PLACE WORD]...    over the words of the last beacon, with other words at these places;
 *                                                a place that was not lent is passed over
 *
 * A line has one space before each number, may have any length, and ends with a line feed.
 * A printed line has: the answer; how many words changed that the call is to leave as they were; the records of a beacon, or where the
 * part of a window begins; then the words of the records, of the part, or of the entry. A line of another form ends the program, and so
 * does any call but open while no table is open. */
#define _POSIX_C_SOURCE 200809L  /* for getline */

#include <errno.h>
#include <inttypes.h>
#include <stdio.h>
#include <stdlib.h>
#include <string.h>

#include "gelmush.h"

#define LENGTH(array) (sizeof(array) / sizeof(*array))
#define LENT_MOST 5200                             /* words that a beacon may be lent here; */
#define MEMORY (LENT_MOST + GELMUSH_RECORD_WORDS)  /* those after them never are */

typedef struct {
    uint32_t answer;
    size_t changed, number, length;
    const uint32_t *words;
} outcome;

static char *line;  /* the one read last; it grows as lines do, */
static size_t line_room;
static unsigned long line_number;
static unsigned long long *numbers;  /* and so do its numbers, */
static size_t numbers_room;
static size_t numbers_read;  /* of which there are so many */

static gelmush_table table;
static int is_open;
static uint32_t plan[MEMORY];   /* as the last beacon left it, */
static size_t lent;             /* which was lent so many words */
static uint32_t found[MEMORY];  /* as this call finds its plan */
static uint32_t shown[MEMORY];  /* an entry, or the plan that a window is lent */

static void stop(const char *why) {
    fflush(stdout);
    fprintf(stderr, "calls: line %lu: %s\n", line_number, why);
    exit(EXIT_FAILURE);
}

static uint32_t word(size_t i) {
    if (numbers[i] > UINT32_MAX) stop("a number past 32 bits");
    return (uint32_t)numbers[i];
}

static size_t differing(const uint32_t *some, const uint32_t *others, size_t words) {
    size_t differ = 0;
    for (size_t i = 0; i < words; i++) differ += some[i] != others[i];
    return differ;
}

static outcome open_table(void) {
    uint32_t answer = gelmush_open(&table, word(0), word(1));
    is_open |= answer == 0;
    return (outcome){.answer = answer};
}

static outcome offer(void) {
    return (outcome){.answer = gelmush_offer(&table, word(0), word(1), word(2), word(3), word(4), word(5))};
}

static outcome withdraw(void) {
    return (outcome){.answer = gelmush_withdraw(&table, word(0))};
}

static outcome enquire(void) {
    gelmush_found held = gelmush_enquire(&table, word(0));
    const gelmush_entry *e = &held.entry;
    const uint32_t words[] = {e->stream, e->kind,      e->parts, e->period, e->min, e->max,
                              e->life,   e->life_left, e->owed,  e->given,  e->left};
    memcpy(shown, words, sizeof words);
    return (outcome){.answer = held.answer, .words = shown, .length = LENGTH(words)};
}

static outcome beacon(void) {
    if (numbers[0] > LENT_MOST) stop("more words than there are to lend");
    lent = numbers[0];
    for (size_t i = 0; i < MEMORY; i++) found[i] = word(1) + UINT32_C(2654435769) * (uint32_t)i;
    memcpy(plan, found, sizeof plan);
    gelmush_sent sent = gelmush_beacon(&table, plan, lent);
    if (sent.count > lent / GELMUSH_RECORD_WORDS) stop("more records than words lent");
    size_t written = GELMUSH_RECORD_WORDS * sent.count;
    size_t changed = differing(plan + written, found + written, MEMORY - written);
    return (outcome){.answer = sent.answer, .changed = changed, .number = sent.count, .words = plan, .length = written};
}

static outcome window(void) {
    memcpy(found, plan, sizeof found);
    for (size_t i = 3; i < numbers_read; i += 2) {
        uint32_t other = word(i + 1);
        if (numbers[i] < lent) found[numbers[i]] = other;
    }
    memcpy(shown, found, sizeof shown);
    uint32_t answer = UINT32_MAX;
    gelmush_place part = gelmush_window(shown, lent, numbers[0], word(1), word(2), &answer);
    if (part.first > lent || part.words > lent - part.first) stop("a part outside the plan");
    size_t changed = differing(shown, found, MEMORY);
    size_t first = answer == 0 ? part.first : 0;  /* Of a refused window the header promises no more than an empty part. */
    return (outcome){.answer = answer, .changed = changed, .number = first, .words = shown + part.first, .length = part.words};
}

static const struct {
    const char *verb;
    size_t numbers;
    int changes;  /* whether it may change the table */
    outcome (*make)(void);
} calls[] = {{"open", 2, 1, open_table}, {"offer", 6, 1, offer},   {"withdraw", 1, 1, withdraw},
             {"enquire", 1, 0, enquire}, {"beacon", 2, 1, beacon}, {"window", 3, 0, window}};

static void make(const char *verb) {
    size_t i = 0;
    while (i < LENGTH(calls) && strcmp(verb, calls[i].verb) != 0) i++;
    if (i == LENGTH(calls)) stop("no such call");
    int pairs = calls[i].make == window && numbers_read > 3 && numbers_read % 2 == 1;
    if (numbers_read != calls[i].numbers && !pairs) stop("not the numbers of this call");
    if (!is_open && calls[i].make != open_table) stop("no table is open");
    gelmush_table before = table;
    outcome o = calls[i].make();
    if (o.answer != 0 || !calls[i].changes) o.changed += differing(table.words, before.words, GELMUSH_TABLE_WORDS);
    printf("%" PRIu32 " %zu %zu", o.answer, o.changed, o.number);
    for (size_t w = 0; w < o.length; w++) printf(" %" PRIu32, o.words[w]);
    putchar('\n');
}

/* The next line, without its end; none where the input ends. */
static int read_line(void) {
    ssize_t length = getline(&line, &line_room, stdin);
    if (length < 0) return 0;
    line_number++;
    if (line[length - 1] != '\n') stop("a line without its end");
    line[length - 1] = '\0';
    if (strlen(line) != (size_t)length - 1) stop("a byte 0");
    return 1;
}

static void add_number(unsigned long long number) {
    if (numbers_read == numbers_room) {
        numbers_room = 2 * numbers_room + 16;
        numbers = realloc(numbers, numbers_room * sizeof *numbers);
        if (numbers == NULL) stop("no memory for so many numbers");
    }
    numbers[numbers_read++] = number;
}

/* The numbers of what follows a verb, one space before each. */
static void read_numbers(const char *rest) {
    numbers_read = 0;
    while (*rest == ' ') {
        const char *digits = rest + 1;
        rest = digits + strspn(digits, "0123456789");
        if (rest == digits) stop("not a number");
        errno = 0;
        unsigned long long number = strtoull(digits, NULL, 10);
        if (errno != 0) stop("a number past 64 bits");
        add_number(number);
    }
    if (*rest != '\0') stop("not a number");
}

int main(void) {
    memset(&table, 0xa5, sizeof table);  /* An opening asks nothing of what lies there. */
    while (read_line()) {
        char *rest = line + strcspn(line, " ");
        read_numbers(rest);
        *rest = '\0';
        make(line);
    }
    return feof(stdin) && fflush(stdout) == 0 && !ferror(stdout) ? EXIT_SUCCESS : EXIT_FAILURE;
}
