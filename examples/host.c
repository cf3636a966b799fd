/*
 * A host program: lends its memory to the library, feeds it a small section record by record and prints what it says.
 * The section is the worked example of the specification, then a question beside the records, calls with null pointers
 * where the length is 0, a mark with top and bottom, a rule list by the new counting, a hole with two ends, a pad of
 * two wells, one of them contradictory, a rule list that is held to the print profile, a stretch correction by which
 * all depths move, and at last a bill by the metre.
 */
#include <harmikse.h>

#include <inttypes.h>
#include <stdio.h>

/* One well's memory. Static memory starts with zeros, which is the empty state. */
static uint8_t block[HARMIKSE_BLOCK_BYTES];
static uint64_t labels[HARMIKSE_LABEL_ENTRIES];
static uint8_t links[HARMIKSE_LINK_BYTES];
static int32_t spans[HARMIKSE_SPAN_NUMBERS];

/* The records, as they come over the line. */
static uint8_t stream[1024];
static size_t stream_len;

static void put_number(uint64_t number, int bytes)
{
    for (int i = 0; i < bytes; i++)
        stream[stream_len++] = (uint8_t)(number >> (8 * i));
}

/* A record's frame: its length counts the kind and the body. */
static void begin(int kind, int body_len)
{
    put_number((uint64_t)body_len + 2, 2);
    put_number((uint64_t)kind, 2);
}

static void reset(void)
{
    begin(1, 0);
}

/* 1 is the old counting, 2 the new one. */
static void set_counting(uint8_t counting)
{
    begin(17, 1);
    put_number(counting, 1);
}

/* The depths that exist, from top to bottom. */
static void give_hole(int32_t top, int32_t bottom)
{
    begin(18, 8);
    put_number((uint32_t)top, 4);
    put_number((uint32_t)bottom, 4);
}

/* All marks, and the hole where there is one, so much deeper; higher where it is negative. */
static void shift_depths(int32_t shift)
{
    begin(20, 4);
    put_number((uint32_t)shift, 4);
}

/* From here on rules are held to the print profile. */
static void switch_profile_on(void)
{
    begin(21, 0);
}

/* The operators without a distance: 2 is BETWEEN, 3 ABOVE, 4 BELOW and 5 ANYWHERE. */
static void add_operator(uint8_t code, uint8_t from, uint8_t to)
{
    begin(2, 7);
    put_number(code, 1);
    put_number(0, 4);
    put_number(from, 1);
    put_number(to, 1);
}

static void add_within(uint32_t n, uint8_t from, uint8_t to)
{
    begin(2, 7);
    put_number(1, 1);
    put_number(n, 4);
    put_number(from, 1);
    put_number(to, 1);
}

static void add_both(uint8_t a, uint8_t b, uint8_t c)
{
    begin(3, 3);
    put_number(a, 1);
    put_number(b, 1);
    put_number(c, 1);
}

static void put_label(uint8_t item, uint8_t label, int32_t depth)
{
    begin(6, 6);
    put_number(item, 1);
    put_number(label, 1);
    put_number((uint32_t)depth, 4);
}

/* A mark from top to bottom. */
static void put_stretch(uint8_t item, uint8_t label, int32_t top, int32_t bottom)
{
    begin(13, 10);
    put_number(item, 1);
    put_number(label, 1);
    put_number((uint32_t)top, 4);
    put_number((uint32_t)bottom, 4);
}

/* A record of kind 7 puts a link, one of kind 9 takes it. */
static void link_mark(int record, uint8_t from, uint8_t kind, uint8_t to, int32_t depth)
{
    begin(record, 7);
    put_number(from, 1);
    put_number(kind, 1);
    put_number(to, 1);
    put_number((uint32_t)depth, 4);
}

static void query_label(uint8_t item, uint8_t label, int64_t depth)
{
    begin(10, 10);
    put_number(item, 1);
    put_number(label, 1);
    put_number((uint64_t)depth, 8);
}

static void query_link(uint8_t from, uint8_t kind, uint8_t to, int64_t depth)
{
    begin(11, 11);
    put_number(from, 1);
    put_number(kind, 1);
    put_number(to, 1);
    put_number((uint64_t)depth, 8);
}

static void ask_spans(uint8_t item, uint8_t label)
{
    begin(12, 2);
    put_number(item, 1);
    put_number(label, 1);
}

static void print_depth(int32_t depth, int32_t no_end)
{
    if (depth == no_end)
        printf("*");
    else
        printf("%" PRId32, depth);
}

static void print_result(uint32_t result)
{
    static const char *const words[] = {"done", "yes", "no", "contradiction", "spans", "end", "refused", "total",
                                        "open"};
    uint32_t answer = HARMIKSE_ANSWER(result);
    uint32_t value = HARMIKSE_VALUE(result);

    printf("%s", words[answer]);
    if (answer == HARMIKSE_CONTRADICTION || answer == HARMIKSE_SPANS || answer == HARMIKSE_REFUSED)
        printf(" %" PRIu32, value);
    for (uint32_t i = 0; answer == HARMIKSE_SPANS && i < value; i++) {
        printf(" ");
        print_depth(spans[2 * i], HARMIKSE_NO_TOP);
        printf(":");
        print_depth(spans[2 * i + 1], HARMIKSE_NO_BOTTOM);
    }
    printf("\n");
}

/* Asks for spans without a record. */
static void ask_beside(uint32_t item, uint32_t label)
{
    printf("beside the records: ");
    print_result(harmikse_spans(block, sizeof block, labels, HARMIKSE_LABEL_ENTRIES, links, sizeof links, spans,
                                HARMIKSE_SPAN_NUMBERS, item, label));
}

/* A pointer whose length is 0 may be null: no input is the end, and no memory is too little. */
static int lend_nothing(void)
{
    uint64_t used = 1;
    uint32_t result = harmikse_record(block, sizeof block, labels, HARMIKSE_LABEL_ENTRIES, links, sizeof links, spans,
                                      HARMIKSE_SPAN_NUMBERS, NULL, 0, &used);

    printf("no input: ");
    print_result(result);
    if (used != 0)
        return 1;
    used = 1;
    result = harmikse_record(NULL, 0, NULL, 0, NULL, 0, NULL, 0, stream, stream_len, &used);
    printf("no memory: ");
    print_result(result);
    printf("no memory beside the records: ");
    print_result(harmikse_spans(NULL, 0, NULL, 0, NULL, 0, NULL, 0, 0, 0));
    return used != 0;
}

static void write_section(void)
{
    add_within(11, 1, 1);
    add_within(20, 2, 3);
    add_both(1, 3, 4);
    put_label(0, 1, 100);
    put_label(0, 1, 109);
    put_label(0, 2, 104);
    put_label(0, 2, 123);
    query_label(0, 4, 106);
    query_label(0, 4, 110);
    ask_spans(0, 4);
    put_label(0, 1, 100);
}

/* A caliper saw label 5 from 130 to 140; the last record has top and bottom the wrong way round. */
static void write_stretch(void)
{
    put_stretch(0, 5, 130, 140);
    query_label(0, 5, 135);
    ask_spans(0, 5);
    put_stretch(0, 5, 140, 130);
}

/* By the new counting 19 is within 19. It can't be set while rules are held, so the first record is refused. */
static void write_counting(void)
{
    set_counting(2);
    reset();
    set_counting(2);
    add_within(19, 1, 2);
    put_label(0, 1, 104);
    put_label(0, 1, 123);
    ask_spans(0, 2);
}

/*
 * In a hole from -500 to 3,000 ANYWHERE ends with the hole, and a mark below it is refused. A hole can't be given while
 * marks are held, so the first record is refused.
 */
static void write_hole(void)
{
    give_hole(-500, 3000);
    reset();
    give_hole(-500, 3000);
    add_operator(5, 1, 2);
    put_label(0, 1, 100);
    ask_spans(0, 2);
    query_label(0, 2, 3000);
    query_label(0, 2, 3001);
    put_label(0, 1, 3001);
}

/*
 * Two wells, items 0 and 1, and their pumps, items 2 and 3, each with a link from the pump to its well. Labels 2 and 3
 * can't be at the same depth (63 is NEVER), and well 1 has both at 340. That well is contradictory, and with it its
 * pump, which the link joins to it; well 0 and its pump are answered. A link question is about both its ends.
 */
static void write_pad(void)
{
    reset();
    add_both(2, 3, 63);
    put_label(0, 1, 100);
    put_label(1, 2, 340);
    put_label(1, 3, 340);
    link_mark(7, 2, 0, 0, 10);
    link_mark(7, 3, 0, 1, 10);
    query_label(0, 1, 100);
    ask_spans(0, 1);
    query_label(1, 1, 100);
    ask_spans(3, 1);
    query_link(2, 0, 0, 10);
    query_link(2, 0, 3, 10);
}

/* Without the link well 1 is as it was, and its pump is answered. */
static void write_parted(void)
{
    link_mark(9, 3, 0, 1, 10);
    ask_spans(1, 1);
    ask_spans(3, 0);
}

/*
 * The paper log shows marked hole only. ANYWHERE would reach beyond it: the profile can't be switched on while such a
 * rule is held, and while it is on the rule is refused. BETWEEN stays within the marks.
 */
static void write_profile(void)
{
    reset();
    add_operator(5, 1, 2);
    switch_profile_on();
    reset();
    switch_profile_on();
    add_operator(5, 1, 2);
    add_operator(2, 1, 2);
    put_label(0, 1, 100);
    put_label(0, 1, 140);
    ask_spans(0, 2);
    query_label(0, 2, 99);
}

/*
 * After a stretch correction everything lies 25 cm deeper: one record moves all marks, and the spans go along. ABOVE
 * still has no end at the top. The last shift would take the marks below 200,000, so it is refused and nothing moves.
 */
static void write_shift(void)
{
    reset();
    add_within(11, 1, 1);
    add_operator(3, 1, 2);
    put_label(0, 1, 100);
    put_label(0, 1, 109);
    ask_spans(0, 1);
    ask_spans(0, 2);
    shift_depths(25);
    ask_spans(0, 1);
    ask_spans(0, 2);
    shift_depths(200000);
    ask_spans(0, 1);
}

/*
 * A zone report of well 0: sand, label 1, from 100 to 249, at 400 and at 409, which WITHIN 11 fills, and gas, label 2,
 * from 240 to 620. Whatever is above the sand is cased, label 4. Well 1 has gas and water, label 3, at 340, which can't
 * be.
 */
static void write_report(void)
{
    reset();
    add_within(11, 1, 1);
    add_operator(3, 1, 4);
    add_both(2, 3, 63);
    put_stretch(0, 1, 100, 249);
    put_label(0, 1, 400);
    put_label(0, 1, 409);
    put_stretch(0, 2, 240, 620);
    put_label(1, 2, 340);
    put_label(1, 3, 340);
    ask_spans(0, 1);
    ask_spans(0, 2);
}

/*
 * Price lists: a label, the cents for each started metre and the least cents for a span. Sand is 150 cm, two started
 * metres at 2.75, and 10 cm at the least price, 4.00; gas is 381 cm, four started metres at 306.25; there is no water.
 */
static const uint32_t zones[][HARMIKSE_LINE_NUMBERS] = {
    {1,   275,   400},
    {2, 30625, 50000},
    {3,   900,  5000},
};

/* What is cased has no end at the top, so it can't be charged, also not for nothing. */
static const uint32_t cased[][HARMIKSE_LINE_NUMBERS] = {
    {1,   275,   400},
    {4,     0,     0},
};

/* No price is over 10,000.00. */
static const uint32_t dear[][HARMIKSE_LINE_NUMBERS] = {
    {1, HARMIKSE_MOST_PRICE + 1, 0},
};

#define LINES(list) (sizeof(list) / sizeof((list)[0]))

static void print_money(const char *word, uint64_t cents)
{
    printf("%s %" PRIu64 ".%02" PRIu64, word, cents / 100, cents % 100);
}

/* Prints a price list and what the item costs by it. No span buffer is needed. */
static void print_bill(uint32_t item, const uint32_t list[][HARMIKSE_LINE_NUMBERS], size_t lines)
{
    uint64_t total = 0;
    uint32_t result = harmikse_charge(block, sizeof block, labels, HARMIKSE_LABEL_ENTRIES, links, sizeof links,
                                      &list[0][0], lines * HARMIKSE_LINE_NUMBERS, item, &total);

    printf("bill of item %" PRIu32 "\n", item);
    for (size_t i = 0; i < lines; i++) {
        printf("  label %" PRIu32, list[i][0]);
        print_money(", a metre", list[i][1]);
        print_money(", at least", list[i][2]);
        printf("\n");
    }
    if (HARMIKSE_ANSWER(result) == HARMIKSE_TOTAL) {
        print_money("total", total);
        printf("\n");
    } else {
        print_result(result);
    }
}

/* Hands over what is left of the stream, record by record; fails where a record is not used. */
static int feed(void)
{
    static size_t at;
    static int number;

    while (at < stream_len) {
        uint64_t used = 0;
        uint32_t result = harmikse_record(block, sizeof block, labels, HARMIKSE_LABEL_ENTRIES, links, sizeof links,
                                          spans, HARMIKSE_SPAN_NUMBERS, stream + at, stream_len - at, &used);

        printf("%d ", ++number);
        print_result(result);
        if (used == 0)
            return 1;
        at += (size_t)used;
    }
    return 0;
}

int main(void)
{
    write_section();
    if (feed() != 0)
        return 1;
    ask_beside(0, 0);
    if (lend_nothing() != 0)
        return 1;
    write_stretch();
    if (feed() != 0)
        return 1;
    write_counting();
    if (feed() != 0)
        return 1;
    write_hole();
    if (feed() != 0)
        return 1;
    write_pad();
    if (feed() != 0)
        return 1;
    ask_beside(0, 1);
    ask_beside(3, 1);
    write_parted();
    if (feed() != 0)
        return 1;
    write_profile();
    if (feed() != 0)
        return 1;
    write_shift();
    if (feed() != 0)
        return 1;
    write_report();
    if (feed() != 0)
        return 1;
    print_bill(0, zones, LINES(zones));
    print_bill(0, cased, LINES(cased));
    print_bill(1, zones, LINES(zones));
    print_bill(0, dear, LINES(dear));
    return 0;
}
