/* The library as a C program links it: document 01's day W, then rows, listings, messages, rooms and records of other kinds, and those of
 * PLS. The messages are laid out here, from the documents' tables of layouts, and every name of the header is held against the library. */
#include <inttypes.h>
#include <stdint.h>
#include <stdio.h>
#include <stdlib.h>
#include <string.h>

#include "sorundappa.h"

static unsigned checks;

static void expect(const char *when, const char *what, uint64_t is, uint64_t wanted)
{
    checks++;
    if (is != wanted) {
        printf("from C: %s: %s is %" PRIu64 ", and not %" PRIu64 "\n", when, what, is, wanted);
        exit(1);
    }
}

static void expect_bytes(const char *when, const char *what, const uint8_t *is, const uint8_t *wanted, size_t length)
{
    checks++;
    for (size_t i = 0; i < length; i++) {
        if (is[i] != wanted[i]) {
            printf("from C: %s: %s, byte %zu is %u, and not %u\n", when, what, i, is[i], wanted[i]);
            exit(1);
        }
    }
}

/* ---- messages of NLS Plus, and further down of PLS */

struct message {
    uint8_t bytes[SORUNDAPPA_LONGEST_MESSAGE];
    size_t length;
};

/* What a message says of one trade. */
struct trade {
    const char *control;
    uint32_t price;
    uint32_t size;
    const char *condition;
};

static void store(uint8_t *at, uint64_t x, size_t width)
{
    for (size_t i = width; i > 0; i--) {
        at[i - 1] = (uint8_t)(x & 255);
        x >>= 8;
    }
}

static void put_number(struct message *m, uint64_t x, size_t width)
{
    store(m->bytes + m->length, x, width);
    m->length += width;
}

/* A text with spaces to its end. */
static void put_text(struct message *m, const char *text, size_t width)
{
    memset(m->bytes + m->length, ' ', width);
    memcpy(m->bytes + m->length, text, strlen(text));
    m->length += width;
}

static void put_trade(struct message *m, const struct trade *t)
{
    put_text(m, t->control, 10);
    put_number(m, t->price, 4);
    put_number(m, t->size, 4);
    put_text(m, t->condition, 4);
}

static struct message event_message(uint32_t time, const char *event)
{
    struct message m = {{0}, 0};
    put_number(&m, time, 4);
    put_text(&m, "S", 1);
    put_text(&m, event, 1);
    return m;
}

/* T, X, or, with a new trade, C, of ABCD. */
static struct message trade_message(const char *type, uint32_t time, const char *centre, const struct trade *t, const struct trade *new,
                                    uint64_t consolidated)
{
    struct message m = {{0}, 0};
    put_number(&m, time, 4);
    put_text(&m, type, 1);
    put_text(&m, centre, 1);
    put_text(&m, "ABCD", 8);
    put_text(&m, "Q", 1);
    put_trade(&m, t);
    if (new) {
        put_trade(&m, new);
    }
    put_number(&m, consolidated, 8);
    return m;
}

/* J of ABCD. */
static struct message summary_message(uint32_t high, uint32_t low, uint32_t close, uint64_t consolidated)
{
    struct message m = {{0}, 0};
    put_number(&m, 7000, 4);
    put_text(&m, "J", 1);
    put_text(&m, "ABCD", 8);
    put_text(&m, "N", 1);
    put_number(&m, high, 4);
    put_number(&m, low, 4);
    put_number(&m, close, 4);
    put_number(&m, consolidated, 8);
    return m;
}

/* The same message with one byte another. */
static struct message changed(struct message m, size_t at, uint8_t byte)
{
    m.bytes[at] = byte;
    return m;
}

/* The same message without its last byte. */
static struct message shortened(struct message m)
{
    m.length--;
    return m;
}

/* ---- the book: counters, at most two rows, at most four lines */

struct book {
    uint64_t counters[SORUNDAPPA_COUNTERS];
    uint8_t rows[2 * SORUNDAPPA_ROW_BYTES];
    size_t rows_bytes;
    uint8_t lines[4 * SORUNDAPPA_LINE_BYTES];
    size_t lines_bytes;
};

static const uint8_t abcd[8] = {'A', 'B', 'C', 'D', ' ', ' ', ' ', ' '};
static const uint8_t abce[8] = {'A', 'B', 'C', 'E', ' ', ' ', ' ', ' '};

/* A book with so much room, not yet started. */
static struct book no_book(size_t rows, size_t lines)
{
    struct book b;
    memset(&b, 255, sizeof b);
    b.rows_bytes = rows * SORUNDAPPA_ROW_BYTES;
    b.lines_bytes = lines * SORUNDAPPA_LINE_BYTES;
    return b;
}

static struct book fresh_book(size_t rows, size_t lines)
{
    struct book b = no_book(rows, lines);
    sorundappa_start(b.counters, SORUNDAPPA_NLS_PLUS);
    return b;
}

static uint8_t list(struct book *b, const uint8_t symbol[8], uint32_t close)
{
    return sorundappa_list(b->counters, b->rows, b->rows_bytes, b->lines, b->lines_bytes, symbol, close);
}

static uint8_t deliver(struct book *b, uint64_t number, const struct message *m)
{
    return sorundappa_deliver(b->counters, b->rows, b->rows_bytes, b->lines, b->lines_bytes, number, m->bytes, m->length);
}

static uint8_t read_row(const struct book *b, const uint8_t symbol[8], uint64_t row[SORUNDAPPA_FIGURES])
{
    memset(row, 255, SORUNDAPPA_FIGURES * sizeof row[0]);
    return sorundappa_row(b->counters, b->rows, b->rows_bytes, b->lines, b->lines_bytes, symbol, row);
}

/* Delivers what must be taken, as the wanted number. */
static void take(const char *when, struct book *b, struct message m)
{
    expect(when, "the answer", deliver(b, b->counters[SORUNDAPPA_WANTED], &m), SORUNDAPPA_DONE);
}

/* A book of one row, ABCD with its close, four lines, and the event O taken. */
static struct book open_book(uint32_t close)
{
    struct book b = fresh_book(1, 4);
    expect("ABCD", "the answer to its listing", list(&b, abcd, close), SORUNDAPPA_DONE);
    take("event O", &b, event_message(1000, "O"));
    return b;
}

/* The figures of a row that may be absent. */
enum { LAST = 1, HIGH_LOW = 2, NET = 4, REPORTED = 8, ALL = 15 };

/* What a row of ABCD is held against; a figure that is not there is 0. */
struct figures {
    unsigned there;
    uint64_t close, last, high, low;
    int64_t net;
    uint64_t volume, count, agrees, reported;
};

static void expect_row(const char *when, const struct book *b, const struct figures *f)
{
    uint64_t row[SORUNDAPPA_FIGURES];
    expect(when, "the answer to a reading", read_row(b, abcd, row), SORUNDAPPA_DONE);
    expect(when, "the symbol", row[SORUNDAPPA_SYMBOL], UINT64_C(0x4142434420202020));
    expect(when, "the close", row[SORUNDAPPA_CLOSE], f->close);
    expect(when, "that there is a last", row[SORUNDAPPA_HAS_LAST], (f->there & LAST) != 0);
    expect(when, "the last", row[SORUNDAPPA_LAST], f->last);
    expect(when, "that there is a high", row[SORUNDAPPA_HAS_HIGH], (f->there & HIGH_LOW) != 0);
    expect(when, "the high", row[SORUNDAPPA_HIGH], f->high);
    expect(when, "that there is a low", row[SORUNDAPPA_HAS_LOW], (f->there & HIGH_LOW) != 0);
    expect(when, "the low", row[SORUNDAPPA_LOW], f->low);
    expect(when, "that there is a net", row[SORUNDAPPA_HAS_NET], (f->there & NET) != 0);
    expect(when, "the net", row[SORUNDAPPA_NET], (uint64_t)f->net);
    expect(when, "the volume", row[SORUNDAPPA_VOLUME], f->volume);
    expect(when, "the count", row[SORUNDAPPA_COUNT], f->count);
    expect(when, "that the row agrees", row[SORUNDAPPA_AGREES], f->agrees);
    expect(when, "that a volume was reported", row[SORUNDAPPA_HAS_REPORTED], (f->there & REPORTED) != 0);
    expect(when, "the reported volume", row[SORUNDAPPA_REPORTED], f->reported);
}

static void expect_no_row(const char *when, const struct book *b, const uint8_t symbol[8], uint64_t answer)
{
    uint64_t row[SORUNDAPPA_FIGURES];
    expect(when, "the answer to a reading", read_row(b, symbol, row), answer);
    for (size_t i = 0; i < SORUNDAPPA_FIGURES; i++) {
        expect(when, "a word of the row", row[i], 0);
    }
}

static void expect_counters(const char *when, const struct book *b, uint64_t wanted, uint64_t phase, uint64_t rows, uint64_t lines,
                            uint64_t taken)
{
    expect(when, "the wanted number", b->counters[SORUNDAPPA_WANTED], wanted);
    expect(when, "the phase", b->counters[SORUNDAPPA_PHASE], phase);
    expect(when, "the rows used", b->counters[SORUNDAPPA_ROWS], rows);
    expect(when, "the lines used", b->counters[SORUNDAPPA_LINES], lines);
    expect(when, "the messages taken", b->counters[SORUNDAPPA_TAKEN], taken);
    expect(when, "the edition", b->counters[SORUNDAPPA_EDITION], SORUNDAPPA_NLS_PLUS);
}

/* ---- the sizes */

static void try_sizes(void)
{
    const struct {
        const char *what;
        uint64_t which, size;
    } sizes[] = {
        {"a row's cell", SORUNDAPPA_SIZE_ROW, SORUNDAPPA_ROW_BYTES},
        {"the most rows", SORUNDAPPA_SIZE_ROWS, SORUNDAPPA_MOST_ROWS},
        {"a line's cell", SORUNDAPPA_SIZE_LINE, SORUNDAPPA_LINE_BYTES},
        {"the most lines", SORUNDAPPA_SIZE_LINES, SORUNDAPPA_MOST_LINES},
        {"the longest message", SORUNDAPPA_SIZE_MESSAGE, SORUNDAPPA_LONGEST_MESSAGE},
        {"a record", SORUNDAPPA_SIZE_RECORD, SORUNDAPPA_RECORD},
        {"the words of the counters", SORUNDAPPA_SIZE_COUNTERS, SORUNDAPPA_COUNTERS},
        {"the words of a row", SORUNDAPPA_SIZE_FIGURES, SORUNDAPPA_FIGURES},
        {"a message of type S", SORUNDAPPA_SIZE_S, SORUNDAPPA_S_BYTES},
        {"a message of type T", SORUNDAPPA_SIZE_T, SORUNDAPPA_T_BYTES},
        {"a message of type X", SORUNDAPPA_SIZE_X, SORUNDAPPA_X_BYTES},
        {"a message of type C", SORUNDAPPA_SIZE_C, SORUNDAPPA_C_BYTES},
        {"a message of type J", SORUNDAPPA_SIZE_J, SORUNDAPPA_J_BYTES},
        {"a message of type S of PLS", SORUNDAPPA_SIZE_PLS_S, SORUNDAPPA_PLS_S_BYTES},
        {"a message of type T of PLS", SORUNDAPPA_SIZE_PLS_T, SORUNDAPPA_PLS_T_BYTES},
        {"a message of type X of PLS", SORUNDAPPA_SIZE_PLS_X, SORUNDAPPA_PLS_X_BYTES},
        {"a message of type C of PLS", SORUNDAPPA_SIZE_PLS_C, SORUNDAPPA_PLS_C_BYTES},
        {"past the last", SORUNDAPPA_SIZE_PLS_C + 1, 0},
        {"the greatest there is", UINT64_MAX, 0},
    };
    for (size_t i = 0; i < sizeof sizes / sizeof sizes[0]; i++) {
        expect("the sizes", sizes[i].what, sorundappa_size(sizes[i].which), sizes[i].size);
    }
}

/* ---- day W, its rows held against document 01's days 1 to 5 to try by hand */

static const struct trade q1 = {"1", 251000, 100, "@   "}, q2 = {"2", 260000, 300, "@   "}, l1 = {"1", 249000, 50, "@  I"},
                          q9 = {"9", 252500, 120, "@   "};

static void try_day(void)
{
    const struct figures after_3 = {ALL, 250000, 260000, 260000, 251000, 10000, 400, 2, 0, 400};
    const struct figures after_4 = {ALL, 250000, 260000, 260000, 251000, 10000, 450, 3, 0, 450};
    const struct figures after_5 = {ALL, 250000, 251000, 251000, 251000, 1000, 150, 2, 0, 500};
    const struct figures after_6 = {ALL, 250000, 252500, 252500, 252500, 2500, 170, 2, 0, 600};
    const struct message again = trade_message("X", 5000, "Q", &q2, NULL, 500);
    struct book b = open_book(250000);
    take("number 2", &b, trade_message("T", 2000, "Q", &q1, NULL, 100));
    take("number 3", &b, trade_message("T", 3000, "Q", &q2, NULL, 400));
    expect_row("after number 3", &b, &after_3);
    take("number 4", &b, trade_message("T", 4000, "L", &l1, NULL, 450));
    expect_row("after number 4", &b, &after_4);
    take("number 5", &b, again);
    expect_row("after number 5", &b, &after_5);
    take("number 6", &b, trade_message("C", 6000, "Q", &q1, &q9, 600));
    expect_row("after number 6", &b, &after_6);
    expect_counters("after number 6", &b, 7, 1, 1, 4, 6);
    expect("a second X of Q 2", "the answer", deliver(&b, 7, &again), SORUNDAPPA_LINE_DEAD);
    expect_row("after a second X of Q 2", &b, &after_6);
    expect_counters("after a second X of Q 2", &b, 8, 1, 1, 4, 6);
}

/* ---- rows of other kinds */

/* Figures come one after the other: none, high and low, a last below the close. Of a close of 0 there is no net. */
static void try_absent(void)
{
    const struct trade no_last = {"1", 249000, 7, "@4  "}, below = {"2", 249999, 8, "@   "};
    const struct figures none = {.close = 250000};
    const struct figures range = {HIGH_LOW | REPORTED, 250000, 0, 249000, 249000, 0, 7, 1, 0, 9};
    const struct figures all = {ALL, 250000, 249999, 249999, 249000, -1, 15, 2, 0, 0};
    const struct figures no_net = {LAST | HIGH_LOW | REPORTED, 0, 249999, 249999, 249999, 0, 8, 1, 0, 10};
    struct book b = open_book(250000), unknown = open_book(0);
    expect_row("a row without lines", &b, &none);
    take("a T that is not the last", &b, trade_message("T", 2000, "B", &no_last, NULL, 9));
    expect_row("a row without a last", &b, &range);
    take("a T below the close", &b, trade_message("T", 3000, "X", &below, NULL, 0));
    expect_row("a negative net", &b, &all);
    take("a T over no close", &unknown, trade_message("T", 2000, "Q", &below, NULL, 10));
    expect_row("a close of 0", &unknown, &no_net);
}

/* A net of zero is there; the lowest there is, document 01's day 12. */
static void try_nets(void)
{
    const struct trade one = {"1", 1, 1, "@   "}, two = {"2", 2000000000, 4294967295, "@   "};
    const struct figures low = {ALL, 2000000000, 1, 1, 1, -1999999999, 1, 1, 0, 2};
    const struct figures zero = {ALL, 2000000000, 2000000000, 2000000000, 1, 0, 4294967296, 2, 0, UINT64_MAX};
    struct book b = open_book(2000000000);
    take("a T of 1", &b, trade_message("T", 2000, "Q", &one, NULL, 2));
    expect_row("the lowest net", &b, &low);
    take("a T of the close", &b, trade_message("T", 2000, "Q", &two, NULL, UINT64_MAX));
    expect_row("a net of zero", &b, &zero);
}

/* A J agrees with a row that has no high and low if both are 0 in it, and with another if they are the row's. */
static void try_agrees(void)
{
    const struct figures empty = {.there = REPORTED, .close = 250000, .agrees = 1, .reported = 5};
    const struct figures stale = {ALL, 250000, 251000, 251000, 251000, 1000, 100, 1, 0, 6};
    const struct figures agreed = {ALL, 250000, 260000, 260000, 251000, 10000, 400, 2, 1, 8};
    const struct figures off = {ALL, 250000, 260000, 260000, 251000, 10000, 400, 2, 0, 9};
    struct book b = open_book(250000);
    take("a J of zeros", &b, summary_message(0, 0, 3, 5));
    expect_row("a J of zeros, no lines", &b, &empty);
    take("a T after the J", &b, trade_message("T", 2000, "Q", &q1, NULL, 6));
    expect_row("a J of zeros, one line", &b, &stale);
    take("a second T", &b, trade_message("T", 3000, "Q", &q2, NULL, 7));
    take("a J of the row", &b, summary_message(260000, 251000, 1, 8));
    expect_row("a J of the row", &b, &agreed);
    take("a J the wrong way round", &b, summary_message(251000, 260000, 1, 9));
    expect_row("a J the wrong way round", &b, &off);
}

static void try_phases(void)
{
    const char *events[] = {"O", "S", "Q", "M", "E", "C"};
    const struct message trade = trade_message("T", 2000, "Q", &q1, NULL, 1), event = event_message(1000, "S");
    struct book b = fresh_book(1, 1);
    expect("ABCD", "the answer to its listing", list(&b, abcd, 1), SORUNDAPPA_DONE);
    for (uint64_t i = 0; i < 6; i++) {
        take("an event", &b, event_message(1000, events[i]));
        expect_counters("after an event", &b, i + 2, i + 1, 1, 0, i + 1);
    }
    expect("event S after event C", "the answer", deliver(&b, 7, &event), SORUNDAPPA_NOT_DUE);
    expect("a T after event C", "the answer", deliver(&b, 8, &trade), SORUNDAPPA_NOT_DUE);
    expect_counters("after event C", &b, 9, 6, 1, 0, 6);
}

/* ---- listings */

static void try_listings(void)
{
    const uint8_t nul[8] = {'A', 'B', 'C', 'D', 0, 0, 0, 0}, spaces[8] = {' ', ' ', ' ', ' ', ' ', ' ', ' ', ' '};
    const struct message event = event_message(1000, "O");
    struct book b = no_book(1, 1);
    expect("no book yet", "the answer to a listing", list(&b, abcd, 250000), SORUNDAPPA_UNSOUND);
    sorundappa_start(b.counters, SORUNDAPPA_NLS_PLUS);
    expect_counters("a fresh book", &b, 1, 0, 0, 0, 0);
    expect("a symbol padded with NUL", "the answer to its listing", list(&b, nul, 1), SORUNDAPPA_LISTING_BROKEN);
    expect("a symbol of spaces", "the answer to its listing", list(&b, spaces, 1), SORUNDAPPA_LISTING_BROKEN);
    expect("too high a close", "the answer to a listing", list(&b, abcd, 2000000001), SORUNDAPPA_LISTING_BROKEN);
    expect_no_row("before the listing", &b, abcd, SORUNDAPPA_NOT_LISTED);
    expect("the highest close", "the answer to a listing", list(&b, abcd, 2000000000), SORUNDAPPA_DONE);
    expect("ABCD again", "the answer to its listing", list(&b, abcd, 0), SORUNDAPPA_LISTED_ALREADY);
    expect("a second row", "the answer to a listing", list(&b, abce, 0), SORUNDAPPA_ROWS_FULL);
    expect_counters("after the listings", &b, 1, 0, 1, 0, 0);
    expect("event O", "the answer", deliver(&b, 1, &event), SORUNDAPPA_DONE);
    expect("after a number", "the answer to a listing", list(&b, abce, 0), SORUNDAPPA_LISTING_LATE);
    expect_no_row("a symbol that is not listed", &b, abce, SORUNDAPPA_NOT_LISTED);
    expect("after all listings", "the byte past the lent row", b.rows[SORUNDAPPA_ROW_BYTES], 255);
}

/* ---- messages refused */

/* A delivery and what it must be answered. */
struct step {
    const char *when;
    uint64_t number;
    struct message m;
    uint64_t answer;
};

/* A refusal leaves both rooms; the wanted number goes up by one where it was used up. */
static void deliver_step(struct book *b, const struct step *s)
{
    const struct book before = *b;
    const uint64_t used_up = s->answer == SORUNDAPPA_DONE || (s->answer >= 4 && s->answer <= 12);
    expect(s->when, "the answer", deliver(b, s->number, &s->m), s->answer);
    expect(s->when, "the wanted number", b->counters[SORUNDAPPA_WANTED], before.counters[SORUNDAPPA_WANTED] + used_up);
    if (s->answer != SORUNDAPPA_DONE) {
        expect(s->when, "the messages taken", b->counters[SORUNDAPPA_TAKEN], before.counters[SORUNDAPPA_TAKEN]);
        expect_bytes(s->when, "the rows", b->rows, before.rows, sizeof b->rows);
        expect_bytes(s->when, "the lines", b->lines, before.lines, sizeof b->lines);
    }
}

static void try_refusals(void)
{
    const struct trade q1_smaller = {"1", 251000, 99, "@   "}, price_0 = {"3", 0, 1, "@   "};
    const struct message event = event_message(1000, "O"), t1 = trade_message("T", 2000, "Q", &q1, NULL, 1);
    const struct message t2 = trade_message("T", 3000, "Q", &q2, NULL, 2), x2 = trade_message("X", 4000, "Q", &q2, NULL, 3);
    const struct step steps[] = {
        {"number 0", 0, event, SORUNDAPPA_NUMBER_OUTSIDE},
        {"number 4,294,967,296", UINT64_C(4294967296), event, SORUNDAPPA_NUMBER_OUTSIDE},
        {"number 2 before 1", 2, event, SORUNDAPPA_NUMBER_ABOVE},
        {"a T before any event", 1, t1, SORUNDAPPA_NOT_DUE},
        {"number 1 again", 1, event, SORUNDAPPA_NUMBER_BELOW},
        {"event O", 2, event, SORUNDAPPA_DONE},
        {"a T cut short", 3, shortened(t1), SORUNDAPPA_NO_TYPE},
        {"a message of type Z", 4, changed(t1, 4, 'Z'), SORUNDAPPA_NO_TYPE},
        {"a price of 0", 5, trade_message("T", 2000, "Q", &price_0, NULL, 1), SORUNDAPPA_FIELD_BROKEN},
        {"a T of ABCE", 6, changed(t1, 9, 'E'), SORUNDAPPA_NOT_LISTED},
        {"an X of no line", 7, x2, SORUNDAPPA_NO_LINE},
        {"Q 1", 8, t1, SORUNDAPPA_DONE},
        {"an X of another size", 9, trade_message("X", 4000, "Q", &q1_smaller, NULL, 3), SORUNDAPPA_LINE_DIFFERS},
        {"a C to its own control", 10, trade_message("C", 5000, "Q", &q1, &q1_smaller, 3), SORUNDAPPA_KEY_USED},
        {"Q 1 again", 11, t1, SORUNDAPPA_KEY_USED},
        {"Q 2", 12, t2, SORUNDAPPA_DONE},
        {"a third line", 13, trade_message("T", 6000, "L", &l1, NULL, 3), SORUNDAPPA_LINES_FULL},
        {"an X of Q 2", 14, x2, SORUNDAPPA_DONE},
        {"a second X of Q 2", 15, x2, SORUNDAPPA_LINE_DEAD},
    };
    struct book b = fresh_book(1, 2);
    expect("ABCD", "the answer to its listing", list(&b, abcd, 250000), SORUNDAPPA_DONE);
    for (size_t i = 0; i < sizeof steps / sizeof steps[0]; i++) {
        deliver_step(&b, &steps[i]);
    }
    expect_counters("after the refusals", &b, 16, 1, 1, 2, 4);
}

static void try_unsound(void)
{
    const struct step step = {"a phase of 7", 2, event_message(1000, "C"), SORUNDAPPA_UNSOUND};
    struct book b = open_book(250000);
    b.counters[SORUNDAPPA_PHASE] = 7;
    deliver_step(&b, &step);
    expect_no_row("a phase of 7", &b, abcd, SORUNDAPPA_UNSOUND);
    expect("a phase of 7", "the answer to a listing", list(&b, abce, 1), SORUNDAPPA_UNSOUND);
    expect_counters("a phase of 7", &b, 2, 7, 1, 0, 1);
}

/* ---- lengths of 0: document 01's days 9 and 14, and no room for rows */

static void try_no_length(void)
{
    const struct message none = {{0}, 0}, t1 = trade_message("T", 2000, "Q", &q1, NULL, 1);
    const struct step steps[] = {
        {"an empty message", 2, none, SORUNDAPPA_NO_TYPE},
        {"a T without room", 3, t1, SORUNDAPPA_LINES_FULL},
        {"an X without room", 4, changed(t1, 4, 'X'), SORUNDAPPA_NO_LINE},
    };
    struct book nothing = fresh_book(0, 0), b = open_book(1);
    b.lines_bytes = 0;
    for (size_t i = 0; i < sizeof steps / sizeof steps[0]; i++) {
        deliver_step(&b, &steps[i]);
    }
    expect("no rows", "the answer to a listing", list(&nothing, abcd, 1), SORUNDAPPA_ROWS_FULL);
    expect_no_row("no rows", &nothing, abcd, SORUNDAPPA_NOT_LISTED);
    take("an event without room", &nothing, event_message(1000, "M"));
    expect_counters("no room at all", &nothing, 2, 4, 0, 0, 1);
}

/* ---- records: read, held byte by byte against what the header's offsets make, and written again */

static void expect_read(const char *when, uint64_t edition, const struct message *m, const uint8_t wanted[SORUNDAPPA_RECORD])
{
    const uint8_t zeros[SORUNDAPPA_RECORD] = {0};
    uint8_t record[SORUNDAPPA_RECORD];
    memset(record, 255, sizeof record);
    expect(when, "the answer to reading", sorundappa_read(edition, m->bytes, m->length, record), SORUNDAPPA_DONE);
    expect_bytes(when, "the record", record, wanted, sizeof record);
    expect(when, "the answer to reading it cut short", sorundappa_read(edition, m->bytes, m->length - 1, record), SORUNDAPPA_NO_TYPE);
    expect_bytes(when, "the record of it cut short", record, zeros, sizeof record);
    memset(record, 255, sizeof record);
    expect(when, "the answer to reading nothing", sorundappa_read(edition, m->bytes, 0, record), SORUNDAPPA_NO_TYPE);
    expect_bytes(when, "the record of nothing", record, zeros, sizeof record);
}

static void expect_written(const char *when, uint64_t edition, const struct message *m, uint8_t record[SORUNDAPPA_RECORD])
{
    const uint8_t time = record[SORUNDAPPA_TIME_AT];
    uint8_t out[SORUNDAPPA_LONGEST_MESSAGE + 1], untouched[sizeof out];
    memset(out, 255, sizeof out);
    memset(untouched, 255, sizeof out);
    expect(when, "the answer to writing into nothing", sorundappa_write(edition, record, out, 0), SORUNDAPPA_NO_SPACE);
    expect(when, "the answer to writing into too little", sorundappa_write(edition, record, out, m->length - 1), SORUNDAPPA_NO_SPACE);
    record[SORUNDAPPA_TIME_AT] = 255;
    expect(when, "the answer to writing a wrong time", sorundappa_write(edition, record, out, sizeof out), SORUNDAPPA_FIELD_BROKEN);
    expect(when, "the answer to both", sorundappa_write(edition, record, out, 0), SORUNDAPPA_FIELD_BROKEN);
    record[SORUNDAPPA_TIME_AT] = time;
    expect_bytes(when, "what was not written", out, untouched, sizeof out);
    expect(when, "the answer to writing", sorundappa_write(edition, record, out, sizeof out), SORUNDAPPA_DONE);
    expect_bytes(when, "what was written", out, m->bytes, m->length);
    expect_bytes(when, "what is past it", out + m->length, untouched, sizeof out - m->length);
}

static void expect_record(const char *when, uint64_t edition, const struct message *m, size_t length, uint8_t record[SORUNDAPPA_RECORD])
{
    expect(when, "its length", m->length, length);
    expect_read(when, edition, m, record);
    expect_written(when, edition, m, record);
}

static void store_trade(uint8_t *at, const struct trade *t)
{
    memset(at, ' ', 22);
    memcpy(at, t->control, strlen(t->control));
    store(at + 10, t->price, 4);
    store(at + 14, t->size, 4);
    memcpy(at + 18, t->condition, 4);
}

/* S, then T, X and C. */
static void try_records(void)
{
    const uint64_t volume = UINT64_C(0x1112131415161718);
    const uint32_t time = 0x01020304;
    const struct message s = event_message(time, "M"), t = trade_message("T", time, "L", &l1, NULL, volume);
    const struct message x = trade_message("X", time, "L", &l1, NULL, volume), c = trade_message("C", time, "L", &l1, &q9, volume);
    uint8_t record[SORUNDAPPA_RECORD] = {0};
    record[SORUNDAPPA_LETTER_AT] = 'S';
    store(record + SORUNDAPPA_TIME_AT, time, 4);
    record[SORUNDAPPA_EVENT_AT] = 'M';
    expect_record("an S", SORUNDAPPA_NLS_PLUS, &s, SORUNDAPPA_S_BYTES, record);
    record[SORUNDAPPA_LETTER_AT] = 'T';
    record[SORUNDAPPA_EVENT_AT] = 0;
    record[SORUNDAPPA_CENTRE_AT] = 'L';
    memcpy(record + SORUNDAPPA_SYMBOL_AT, abcd, 8);
    record[SORUNDAPPA_CLASS_AT] = 'Q';
    store_trade(record + SORUNDAPPA_SALE_AT, &l1);
    store(record + SORUNDAPPA_CONSOLIDATED_AT, volume, 8);
    expect_record("a T", SORUNDAPPA_NLS_PLUS, &t, SORUNDAPPA_T_BYTES, record);
    record[SORUNDAPPA_LETTER_AT] = 'X';
    expect_record("an X", SORUNDAPPA_NLS_PLUS, &x, SORUNDAPPA_X_BYTES, record);
    record[SORUNDAPPA_LETTER_AT] = 'C';
    store_trade(record + SORUNDAPPA_NEW_AT, &q9);
    expect_record("a C", SORUNDAPPA_NLS_PLUS, &c, SORUNDAPPA_C_BYTES, record);
}

static void try_summary_record(void)
{
    const uint32_t high = 0x31323334, low = 0x41424344, close = 0x51525354;
    const uint64_t volume = UINT64_C(0x6162636465666768);
    const struct message j = summary_message(high, low, close, volume);
    uint8_t record[SORUNDAPPA_RECORD] = {0};
    record[SORUNDAPPA_LETTER_AT] = 'J';
    store(record + SORUNDAPPA_TIME_AT, 7000, 4);
    memcpy(record + SORUNDAPPA_SYMBOL_AT, abcd, 8);
    record[SORUNDAPPA_CLASS_AT] = 'N';
    store(record + SORUNDAPPA_HIGH_AT, high, 4);
    store(record + SORUNDAPPA_LOW_AT, low, 4);
    store(record + SORUNDAPPA_CLOSE_AT, close, 4);
    store(record + SORUNDAPPA_CONSOLIDATED_AT, volume, 8);
    expect_record("a J", SORUNDAPPA_NLS_PLUS, &j, SORUNDAPPA_J_BYTES, record);
}

/* ---- PLS: a text of its own, laid out from document 02 and the pages that it names */

static struct message text_message(const char *text)
{
    struct message m = {{0}, 0};
    put_text(&m, text, strlen(text));
    return m;
}

/* A trade, its cancel with leading zeros, and a correction, read, written and delivered. */
static const char pls_t[] = "34200000TXABCD    Q1             251000      100@   ";
static const char pls_x_zeros[] = "34200000XXABCD    Q1         0000251000  0000100@   ";
static const char pls_x[] = "34200000XXABCD    Q1             251000      100@   ";
static const char pls_c[] = "34200000CXABCD    Q1             251000      100@   9             252500      120@   ";

static void try_pls_records(void)
{
    const struct trade p1 = {"1", 251000, 100, "@   "};
    const struct message s = text_message("       0SO"), t = text_message(pls_t), x = text_message(pls_x), c = text_message(pls_c);
    const struct message zeros = text_message("00000000SO"), x_zeros = text_message(pls_x_zeros);
    uint8_t record[SORUNDAPPA_RECORD] = {0};
    record[SORUNDAPPA_LETTER_AT] = 'S';
    record[SORUNDAPPA_EVENT_AT] = 'O';
    expect_record("an S of PLS", SORUNDAPPA_PLS, &s, SORUNDAPPA_PLS_S_BYTES, record);
    expect_read("an S of PLS with zeros", SORUNDAPPA_PLS, &zeros, record);
    record[SORUNDAPPA_LETTER_AT] = 'T';
    store(record + SORUNDAPPA_TIME_AT, 34200000, 4);
    record[SORUNDAPPA_EVENT_AT] = 0;
    record[SORUNDAPPA_CENTRE_AT] = 'X';
    memcpy(record + SORUNDAPPA_SYMBOL_AT, abcd, 8);
    record[SORUNDAPPA_CLASS_AT] = 'Q';
    store_trade(record + SORUNDAPPA_SALE_AT, &p1);
    expect_record("a T of PLS", SORUNDAPPA_PLS, &t, SORUNDAPPA_PLS_T_BYTES, record);
    record[SORUNDAPPA_LETTER_AT] = 'X';
    expect_record("an X of PLS", SORUNDAPPA_PLS, &x, SORUNDAPPA_PLS_X_BYTES, record);
    expect_read("an X of PLS with zeros", SORUNDAPPA_PLS, &x_zeros, record);
    record[SORUNDAPPA_LETTER_AT] = 'C';
    store_trade(record + SORUNDAPPA_NEW_AT, &q9);
    expect_record("a C of PLS", SORUNDAPPA_PLS, &c, SORUNDAPPA_PLS_C_BYTES, record);
}

/* Document 02's day of a PLS book, and a cancel that spells its trade with zeros. */
static void try_pls_day(void)
{
    const struct figures traded = {LAST | HIGH_LOW | NET, 250000, 251000, 251000, 251000, 1000, 100, 1, 0, 0};
    const struct figures none = {.close = 250000};
    const struct message of_nls_plus = event_message(1000, "O");
    struct book b = no_book(1, 4);
    sorundappa_start(b.counters, SORUNDAPPA_PLS);
    expect("ABCD, PLS", "the answer to its listing", list(&b, abcd, 250000), SORUNDAPPA_DONE);
    expect("an S of NLS Plus", "the answer", deliver(&b, 1, &of_nls_plus), SORUNDAPPA_NO_TYPE);
    take("an S of PLS", &b, text_message("       0SO"));
    take("a T of PLS", &b, text_message(pls_t));
    expect_row("after a T of PLS", &b, &traded);
    expect("after a T of PLS", "the wanted number", b.counters[SORUNDAPPA_WANTED], 4);
    expect("after a T of PLS", "the messages taken", b.counters[SORUNDAPPA_TAKEN], 2);
    take("an X of PLS", &b, text_message(pls_x_zeros));
    expect_row("after an X of PLS", &b, &none);
    expect("after the day", "the edition", b.counters[SORUNDAPPA_EDITION], SORUNDAPPA_PLS);
}

/* Numbers that are no edition's: no call on such words changes anything. */
static void try_no_edition(void)
{
    const uint64_t strange[] = {2, 256, UINT64_C(4294967296), UINT64_MAX};
    const uint8_t zeros[SORUNDAPPA_RECORD] = {0};
    const struct message event = event_message(1000, "O");
    uint8_t record[SORUNDAPPA_RECORD], out[8], untouched[8];
    memset(untouched, 255, sizeof untouched);
    for (size_t i = 0; i < sizeof strange / sizeof strange[0]; i++) {
        struct book b = no_book(1, 1), before;
        sorundappa_start(b.counters, strange[i]);
        expect("no edition", "its word", b.counters[SORUNDAPPA_EDITION], strange[i]);
        before = b;
        expect("no edition", "the answer to a listing", list(&b, abcd, 1), SORUNDAPPA_UNSOUND);
        expect("no edition", "the answer", deliver(&b, 1, &event), SORUNDAPPA_UNSOUND);
        expect_no_row("no edition", &b, abcd, SORUNDAPPA_UNSOUND);
        expect_bytes("no edition", "the counters", (const uint8_t *)b.counters, (const uint8_t *)before.counters, sizeof b.counters);
        expect_bytes("no edition", "the rows", b.rows, before.rows, sizeof b.rows);
        expect_bytes("no edition", "the lines", b.lines, before.lines, sizeof b.lines);
        memset(record, 255, sizeof record);
        expect("no edition", "the answer to reading", sorundappa_read(strange[i], event.bytes, event.length, record),
               SORUNDAPPA_NO_TYPE);
        expect_bytes("no edition", "the record", record, zeros, sizeof record);
        memset(out, 255, sizeof out);
        expect("an event", "the answer to reading", sorundappa_read(SORUNDAPPA_NLS_PLUS, event.bytes, event.length, record),
               SORUNDAPPA_DONE);
        expect("no edition", "the answer to writing", sorundappa_write(strange[i], record, out, sizeof out), SORUNDAPPA_FIELD_BROKEN);
        expect_bytes("no edition", "what was not written", out, untouched, sizeof out);
    }
}

int main(void)
{
    try_day();
    try_absent();
    try_nets();
    try_agrees();
    try_phases();
    try_listings();
    try_refusals();
    try_unsound();
    try_no_length();
    try_records();
    try_summary_record();
    try_pls_records();
    try_pls_day();
    try_no_edition();
    try_sizes();
    printf("from C: %u checks\n", checks);
    return 0;
}
