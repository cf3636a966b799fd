/*
 * Harmikse: the depth label service, as a C library.
 *
 * The caller lends memory, up to four pieces of it, and the bytes of a record; the library holds nothing between
 * calls, allocates nothing and has no global state. It needs memcpy and memset, and nothing else of the C library.
 * The archive is for x86-64.
 *
 *   block   the state: every rule accepted since the last RESET, every mark accepted since then and not taken, the
 *           counting, the hole and the print profile. All zeros is the empty state. Keep it from call to call and write
 *           it with nothing else: a block that no run of records leads to is refused with 2. That is no checksum: a
 *           changed byte may make another block that some run leads to.
 *   labels  the label table, 64-bit numbers: entry item * 193 + piece, bit = label.
 *   links   the link table, bytes: entry (from * 16 + to) * 193 + piece, bit = link kind.
 *   spans   the span buffer: pairs of top and bottom, in centimetres, the longest runs of consecutive depths, shallow
 *           to deep. What lies behind the pairs that were written is as lent.
 *
 * Pieces: each marked depth is one, and so is each longest run of depths between, above and below them; numbered from
 * 0, shallow to deep, 193 at most, and one where there is no mark. In each piece that there is, bit 0 (EVERY) of each
 * item is set; entries behind the last piece are zero.
 *
 * Each is a pointer and a length in elements. Lengths may be larger than the sizes below: what lies behind is never
 * written. What tables and span buffer hold before a call plays no part; they need no clearing.
 *
 * Ownership: all memory stays the caller's, and is used during the call alone. Of block, labels, links, spans, used and
 * total none may overlap another, and none may overlap the input or the price lines. Pointers are aligned for their
 * type. A pointer may be NULL where its length is 0, and nowhere else: nothing is read or written there then. used and
 * total are never NULL.
 *
 * Threads: calls on different memory are independent and may run at once. Memory that is lent to a call belongs to that
 * call until it returns, and to no other call, with one exception: harmikse_spans and harmikse_charge only read the
 * block, so calls of these may share a block while no harmikse_record has it, each with tables of its own, and with a
 * span buffer or a total of its own; calls of harmikse_charge may share price lines too.
 *
 * Records: a 2-byte length, a 2-byte kind, the body. Every number is little-endian; signed ones are two's complement.
 * The length field counts kind and body and not itself, so that a record has length + 2 bytes. Fields are one byte
 * each but for n, 4 bytes unsigned, the depth, top and bottom of a mark or a hole and the amount of a shift, 4 bytes
 * signed, and the depth of a question, 8 bytes signed.
 *
 *   kind    name                 body                              length field
 *   1       RESET                none                              2
 *   2       LABEL                code, n, A, B                     9
 *   3       BOTH                 A, B, C                           5
 *   4       LINKRULE             code, n, r, s                     9
 *   5       VIA                  r, A, B                           5
 *   6, 8    PUT, TAKE label      item, label, depth                8
 *   7, 9    PUT, TAKE link       from, link kind, to, depth        9
 *   10      QUERY label          item, label, depth                12
 *   11      QUERY link           from, link kind, to, depth        13
 *   12      SPANS                item, label                       4
 *   13, 15  PUT, TAKE label      item, label, top, bottom          12
 *   14, 16  PUT, TAKE link       from, link kind, to, top, bottom  13
 *   17      COUNTING             1 (old) or 2 (new)                3
 *   18      HOLE                 top, bottom                       10
 *   20      SHIFT                amount                            6
 *   21      PROFILE              none                              2
 *
 * Items are 0 to 15, link kinds 0 to 7, labels 0 to 63: 0 is EVERY, which holds for every item at every depth, 63 is
 * NEVER, which may hold nowhere. A link may lead from an item to itself. A rule's left labels are 0 to 62 and its
 * concluded label 1 to 63, marked labels are 1 to 62, and any may be asked about. Codes: 1 WITHIN, with n from 1 to
 * 300,000; with n = 0 2 BETWEEN, 3 ABOVE, 4 BELOW, 5 ANYWHERE. On the depths of a label or a link WITHIN gives those
 * from one to another that lies near enough, BETWEEN those from the least to the greatest, ABOVE all up to the
 * greatest, BELOW all from the least on, ANYWHERE all; on none each gives none, and depths without a least or a
 * greatest have no end on that side. Depths of marks and holes are -10,000 to 200,000, larger is deeper; a question may
 * name any.
 *
 * Rules: LABEL gives an item B at each depth that the operator gives on the depths of its A. BOTH gives an item C at
 * each depth where it has A and B. LINKRULE gives link s from one item to another at each depth that the operator gives
 * on the depths of link r between these two, that way round. VIA gives an item B at each depth where link r leads from
 * it to an item that has A at this same depth. Rules are used until nothing new follows. At most 128 are held; two are
 * the same if they have the same kind and all fields equal, so BOTH 1 2 3 and BOTH 2 1 3 are two.
 *
 * Marks: a mark has a top and a bottom, from -10,000 to 200,000 cm, and is true at each depth from one to the other.
 * Kinds 6 and 7 put a label and a link with both at one depth, and kinds 8 and 9 take them. Kinds 13 and 14 put a
 * label and a link with top and bottom, and kinds 15 and 16 take them. Two marks are the same if all their fields
 * are, by whichever kind they come: kind 8 takes what kind 13 put with both ends equal. What is only derived is not
 * held, and cannot be taken. At most 256 marks are held, and at most 96 depths are marked: tops and bottoms, each depth
 * once; what lies between is not marked.
 *
 * Counting: WITHIN n fills from j to k where k - j < n by the old counting, and where k - j <= n by the new one. Kind
 * 17 sets it; a byte other than 1 and 2 is refused with 7. Send it before the rules: while a rule is held it is refused
 * with 15, whichever of the two it names. The empty state has the old counting, and RESET goes back to it.
 *
 * Hole: kind 18 gives the hole's top and bottom. From then on only the depths from one to the other exist, both
 * included: EVERY holds there alone, each operator gives depths of the hole alone, and a question outside is answered
 * no, or contradiction, which goes first. The pieces are those of the hole: the first begins at its top, the last ends
 * at its bottom. The hole's ends are no marked depths. A mark to put that reaches outside is refused with 16. Send kind
 * 18 before the marks: while a mark is held any hole, the one in force too, is refused with 17; rules don't matter. A
 * later hole replaces the one before, and it stays when the last mark is taken; a shift moves it with the marks. The
 * empty state has no hole, and RESET goes back to that.
 *
 * Shift: after a stretch correction all depths move by the same amount. Kind 20 adds its amount, which may be negative
 * and as large as its 4 bytes hold, to both ends of each held mark and of the hole, or to none of them: it is refused
 * with 8 if any of these depths would leave -10,000 to 200,000. The sums are exact. With no mark and no hole there is
 * nothing to move, and any amount is done. The marks stay in their order, and rules, counting and profile as they are;
 * from then on a mark is taken, or already held, by its moved ends. After a shift by c the answer at depth d + c is the
 * earlier answer at d, for every d where d + c is a 64-bit number, contradiction with the same item; the spans are the
 * earlier ones moved by c, and an end that was missing still is. A shift by -c takes it back, and the block is then
 * what it was; where 4 bytes don't hold -c, nothing had moved.
 *
 * Profile: for a paper log, which shows only what lies between marks. A rule is in the print profile unless it is a
 * LABEL or LINKRULE with ABOVE, BELOW or ANYWHERE, a LABEL with EVERY on its left, by WITHIN and BETWEEN too, or a BOTH
 * with EVERY twice; BOTH with EVERY once is in it, and so is each VIA. Kind 21 switches the profile on; it is refused
 * with 20 while a rule outside is held, and done where the profile is on already; marks, counting and hole don't
 * matter. Send it before the rules: a rule can't be taken, so after that refusal only RESET helps. While it is on a
 * rule outside is refused with 20. The empty state has it off, RESET switches it off, and nothing else does. It alters
 * no answer to a question. But where all held rules are in it, on or off, no label but EVERY and no link, of any item,
 * holds above the shallowest or below the deepest marked depth, among all held marks: a question for one of these there
 * is answered no, or contradiction, which goes first, and every span of such a label has both ends, at those depths or
 * between them. Without marks the answer for one of these is no, or no spans.
 *
 * Contradiction: a question is about its item, a link question about both its ends. Items are joined where a chain of
 * links leads from one to the other, held or derived, of any kind, followed either way, at any depths; an item is
 * joined to itself. A question is answered contradiction exactly if an item joined to one that it is about has NEVER
 * at some depth, and names the lowest item that has NEVER among those joined, which need not be the one asked about.
 * Otherwise yes, no and spans are those of the joined items alone: marks on items that are joined to none that the
 * question is about, neither before nor after they are put or taken, alter no answer to it, list limits aside. Both
 * tables show all items, whatever is joined: bit 63 of a label entry says which items have NEVER, and where.
 *
 * Charge: zone reports are billed by length. harmikse_charge takes an item and price lines: a label, its price in cents
 * for each started metre, and its least price in cents for a span. Each span of a line's label, as SPANS tells them,
 * costs the larger of price times started metres and least price; a span from t to b has b - t + 1 centimetres, so
 * that 1 to 100 of them are one started metre and 101 are two. The total is the sum over all spans of all lines: a
 * label that is listed twice counts twice, a label without spans costs nothing, and no lines come to 0. Marks of items
 * that are joined to the item neither before nor after, the profile, a shift, and reversing the line with ABOVE and
 * BELOW exchanged alter no charge.
 *
 * Stack: leave 176 KiB for a call (HARMIKSE_STACK_BYTES).
 *
 * Refusals leave all lent memory unchanged, and so does end. Only an answer of done changes the block; RESET makes its
 * first HARMIKSE_BLOCK_BYTES all zeros. After a question (yes, no, contradiction, spans) and after a charge (total,
 * open, contradiction) both tables show what the held marks and rules derive; after anything else they are as lent.
 * Only an answer of spans writes the span buffer, and only a total the number for it.
 */
#ifndef HARMIKSE_H
#define HARMIKSE_H

#include <stddef.h>
#include <stdint.h>

#ifdef __cplusplus
extern "C" {
#endif

/* The least lengths, in elements. */
#define HARMIKSE_BLOCK_BYTES 4128
#define HARMIKSE_LABEL_ENTRIES 3088
#define HARMIKSE_LINK_BYTES 49408
#define HARMIKSE_SPAN_NUMBERS 194

/* Pieces of the line in a row of either table, and the most pairs that an answer of spans writes. */
#define HARMIKSE_PIECES 193
#define HARMIKSE_MOST_SPANS 97

/*
 * In a pair: no end on that side. Where there is a hole, every span has both ends, and so has every span of a label
 * other than EVERY where all held rules are in the print profile.
 */
#define HARMIKSE_NO_TOP INT32_MIN
#define HARMIKSE_NO_BOTTOM INT32_MAX

/* Numbers of a price line, the most lines of a charge, and the highest price in cents. */
#define HARMIKSE_LINE_NUMBERS 3
#define HARMIKSE_CHARGE_LINES 16
#define HARMIKSE_MOST_PRICE 1000000

/* Room on the stack for a call. */
#define HARMIKSE_STACK_BYTES 180224

/* What a call returns: the answer's number in the upper half, its value in the lower. */
#define HARMIKSE_ANSWER(result) ((uint32_t)(result) >> 16)
#define HARMIKSE_VALUE(result) ((uint32_t)(result) & 0xffffu)

enum harmikse_answer {
    HARMIKSE_DONE = 0,
    HARMIKSE_YES = 1,
    HARMIKSE_NO = 2,
    HARMIKSE_CONTRADICTION = 3, /* value: the lowest item that has NEVER of those joined to the question's */
    HARMIKSE_SPANS = 4,         /* value: how many pairs were written */
    HARMIKSE_END = 5,           /* no byte was left, and neither 1 nor 2 applies */
    HARMIKSE_REFUSED = 6        /* value: one of the numbers below */
};

/* What harmikse_charge answers: these two, whose value is 0, or contradiction or refused as above. */
enum harmikse_charge_answer {
    HARMIKSE_TOTAL = 7,         /* the sum in cents is in *total */
    HARMIKSE_OPEN = 8           /* a listed label has a span without an end, on one side or on both; also at price 0 */
};

/* Where several apply, the first in the order 1 to 7, 15, 8, 14, 16, 17, 20, 9 to 13 is given; end is after 2. */
enum harmikse_refusal {
    /* block, a table or span buffer too short, or a number of price line numbers that is no multiple of 3 */
    HARMIKSE_SHORT_MEMORY = 1,
    HARMIKSE_BAD_BLOCK = 2,      /* a block that no run of records from all zeros leads to */
    HARMIKSE_BAD_FRAME = 3,      /* 1 to 3 bytes left, or a length under 2 or past the input */
    HARMIKSE_UNKNOWN_KIND = 4,
    HARMIKSE_WRONG_LENGTH = 5,   /* length not that of the kind */
    HARMIKSE_BAD_NAME = 6,       /* an item, label or link kind out of range */
    HARMIKSE_BAD_OPERATOR = 7,   /* code or n out of range, or a counting other than 1 and 2 */
    /* a mark's depth, top or bottom, or an end of a hole, out of range, or a shift by which a held one would be */
    HARMIKSE_BAD_DEPTH = 8,
    HARMIKSE_ALREADY_HELD = 9,   /* a rule, or a mark to put */
    HARMIKSE_NOT_HELD = 10,      /* a mark to take; what is only derived is not held */
    HARMIKSE_LIST_FULL = 11,     /* 128 rules or 256 marks */
    HARMIKSE_DEPTHS_FULL = 12,   /* a mark with which tops and bottoms would be at more than 96 depths */
    HARMIKSE_BAD_LINES = 13,     /* more than 16 price lines, or a price or least price over 1,000,000 */
    HARMIKSE_BAD_STRETCH = 14,   /* a mark's or a hole's top deeper than its bottom; tested after 8 and before 16 */
    HARMIKSE_RULES_HELD = 15,    /* kind 17 while a rule is held; tested after 7 and before 8 */
    HARMIKSE_OUTSIDE_HOLE = 16,  /* a mark to put that reaches outside the hole; tested after 14 and before 17 */
    HARMIKSE_MARKS_HELD = 17,    /* kind 18 while a mark is held; tested after 16 and before 20 */
    /* a rule outside the profile while it is on, or kind 21 while such a rule is held; tested after 17 and before 9 */
    HARMIKSE_OUTSIDE_PROFILE = 20
};

/*
 * Takes one record from the start of the input, where input is all the bytes that are left, and says in *used how many
 * bytes it used: go on with input + *used. 0 bytes are used for the refusals 1 and 2 and for end, so a loop stops
 * there: the same call would give the same again. All that is left is used for 3, also where the rest of a record is
 * still to come: hand over whole records. For every other refusal and every accepted record it is length field + 2.
 * Where no byte is left input may be NULL.
 */
uint32_t harmikse_record(uint8_t *block, size_t block_len,
                         uint64_t *labels, size_t labels_len,
                         uint8_t *links, size_t links_len,
                         int32_t *spans, size_t spans_len,
                         const uint8_t *input, size_t input_len,
                         uint64_t *used);

/*
 * Asks for the spans of a label of an item, as the record SPANS does, without a record. Answers spans or contradiction,
 * or is refused with 1, 2, or 6 for an item over 15 or a label over 63. The block is never written.
 */
uint32_t harmikse_spans(const uint8_t *block, size_t block_len,
                        uint64_t *labels, size_t labels_len,
                        uint8_t *links, size_t links_len,
                        int32_t *spans, size_t spans_len,
                        uint32_t item, uint32_t label);

/*
 * Charges an item by price lines, HARMIKSE_LINE_NUMBERS numbers each (label, price, least price). lines_len counts
 * the numbers, so it is three times the number of lines; lines may be NULL where it is 0. No span buffer is lent.
 * Refused with 1, 2, 6 for an item over 15 or a label over 63 in any line, all lines being read, or 13 for more than
 * 16 lines or a price over 1,000,000, in this order. Otherwise contradiction where a question about the item is
 * answered so, with the same value; else open where a listed label has a span without an end, which in a hole none
 * has; else a total. *total is written only with a total. The tables end as after harmikse_spans. The block is never
 * written. With two lines:
 *
 *     static const uint32_t lines[2][HARMIKSE_LINE_NUMBERS] = {{1, 275, 400}, {2, 30625, 50000}};
 *     uint64_t cents;
 *     r = harmikse_charge(block, sizeof block, labels, HARMIKSE_LABEL_ENTRIES, links, sizeof links,
 *                         &lines[0][0], 2 * HARMIKSE_LINE_NUMBERS, 0, &cents);
 */
uint32_t harmikse_charge(const uint8_t *block, size_t block_len,
                         uint64_t *labels, size_t labels_len,
                         uint8_t *links, size_t links_len,
                         const uint32_t *lines, size_t lines_len,
                         uint32_t item,
                         uint64_t *total);

/*
 * A short example: a mark of label 1 on item 0 at 100 cm is put, and its spans are asked for.
 *
 *     static uint8_t block[HARMIKSE_BLOCK_BYTES];
 *     static uint64_t labels[HARMIKSE_LABEL_ENTRIES];
 *     static uint8_t links[HARMIKSE_LINK_BYTES];
 *     static int32_t spans[HARMIKSE_SPAN_NUMBERS];
 *     static const uint8_t put[] = {8, 0, 6, 0, 0, 1, 100, 0, 0, 0};
 *     uint64_t used;
 *     uint32_t r = harmikse_record(block, sizeof block, labels, HARMIKSE_LABEL_ENTRIES, links, sizeof links,
 *                                  spans, HARMIKSE_SPAN_NUMBERS, put, sizeof put, &used);
 *     if (HARMIKSE_ANSWER(r) == HARMIKSE_DONE)
 *         r = harmikse_spans(block, sizeof block, labels, HARMIKSE_LABEL_ENTRIES, links, sizeof links,
 *                            spans, HARMIKSE_SPAN_NUMBERS, 0, 1);
 *     // now HARMIKSE_ANSWER(r) is HARMIKSE_SPANS, HARMIKSE_VALUE(r) is 1, and spans[0] and spans[1] are 100
 */

#ifdef __cplusplus
}
#endif

#endif
