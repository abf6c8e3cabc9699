/*
 * planner.h: reservations, queue sizes and delays of a cluster tree of battery radios, for programs in C.
 *
 * A row of settings, or the node list of a surveyed tree, goes in as bytes; the plan comes out as text in a buffer that the caller lends. There is no state, no memory is
 * allocated, nothing is read or written but what is handed over, and every call returns. What each call answers and leaves is proved
 * (docs/TRUST.md); what the caller has to see to is listed below.
 *
 *     uint8_t text[PLANNER_LONGEST_TEXT];
 *     planner_answer a = planner_plan_row(names, names_length, row, row_length, text, sizeof text);
 *     if (a.number == 0)
 *         fwrite(text, 1, a.length, stdout);
 *     else
 *         printf("R %u %u\n", (unsigned)a.number, (unsigned)a.place);
 *
 * and of a surveyed tree, whose nodes are listed one by one:
 *
 *     uint8_t text[PLANNER_LONGEST_TREE_TEXT];
 *     planner_answer a = planner_plan_tree(nodes, nodes_length, bo, so, head, data, ack, sink, loss, text, sizeof text);
 *
 * and, for people, one line of English:
 *
 *     uint8_t line[PLANNER_LONGEST_REASON];
 *     planner_answer e = planner_explain_row(names, names_length, row, row_length, line, sizeof line);
 *     fwrite(line, 1, e.length, stdout);
 *
 * Names and rows
 *
 *     names   the line of names, without its line end, of 12 names or of 13:
 *             BO SO H NR NE OWN SINK BURST RATE HEAD DATA ACK
 *             BO SO H NR NE OWN SINK BURST RATE HEAD DATA ACK LOSS
 *     row     as many values in that order, without a line end: 1 to 4 digits each, no leading zero, one space between,
 *             as 8 4 1 2 1 0 0 1 1 19 7 0 or 8 4 1 2 1 0 0 1 1 19 7 1 3
 *
 *     LOSS, 0 to 7, is how many tries of one frame on one link may fail in a row, the frame or its acknowledgement lost; under 12 names it is 0.
 *     The exchange of a frame then lasts X + LOSS x (X + 20) symbols, where X is what planner_exchange_time hands out: the tries that fail
 *     and the one that does not fit into it, and the frame counts as received when it ends. Slots, frames, latencies, buffers and delays are
 *     those of such exchanges. So the printed delays, queue sizes and the sink's load hold with up to LOSS failed tries for each frame on each
 *     link, and for LOSS 0 with none.
 *
 *     Neither needs a 0 byte at its end, and a line end or a 0 byte inside is a byte like any other (no name, no digit).
 *
 * Node lists
 *
 *     nodes   a text of lines, each ended by a line feed (the last may lack it): NODE PARENT BURST RATE, and then 1 to 254
 *             node lines of four values, written as a row's are, as 2 1 0 0 or 5 2 1 12.
 *             NODE counts 1, 2, ..; node 1 is the root and has PARENT 0, any other parent is an earlier node; BURST and RATE
 *             are those of the node's own sensor, 1 to 255 and 1 to 4095, or both 0 where it has none.
 *     beside  bo, so, head, data, ack and loss as in a row (loss 0: no try fails); sink is the node that all readings go to. It must be
 *             a router: node 1 or a node with children.
 *
 * Answers
 *
 *     number 0    planned: length is the length of the plan's text, place is 0
 *     number > 0  refused with this number at this place; length is 0:
 *                 1  names differ or are missing                 place 0
 *                 2  a value is unreadable or missing, or text   its column, from 1; for text after the last 13
 *                    stands after the last                       under 12 names, 14 under 13
 *                 3  a value is outside its range                its column
 *                 4  values at odds with each other              2, 4, 5, 7, 11 or 13: a column
 *                 5  NE + NR > 7 reservations                    0
 *                 6  more routers than superframes fit           0
 *                 7  slots used exceed those reservable          the first such depth
 *                 8  text_length is less than the text's length  0 (in planner_explain_row and planner_explain_refusal:
 *                    line_length is less than the line's)
 *                 The first that applies, in this order.
 *
 *     For node lists, in this order:
 *                 10 the line of names differs or is missing     place 0
 *                 10 a node line breaks a rule, or the first is  its line: node 1's is 1
 *                    missing
 *                 10 the sink is no router of the tree           place 0
 *                 3  a number beside is outside its range        its column in a row: bo 1, so 2, head 10, data 11, ack 12,
 *                                                                loss 13
 *                 4  so > bo; head + data > 127; loss > 0 with   2; 11; 13
 *                    ack 0
 *                 6  more routers than superframes fit           0
 *                 5  more than 7 reservations at a router, or    that router's node, the first one
 *                 7  its slots used exceed those reservable
 *                 8  text_length is less than the text's length  0
 *
 * The text has a header line and one line for each kind of link, each ended by a line feed, and no 0 byte at its end. That of a node list
 * has a line for each node, in the nodes' order, with a tenth column, ROUTE: the delay of the node's frames over their whole way to the
 * sink. The longest time from any reading to the sink is the largest ROUTE.
 *
 * Lines of English
 *
 *     A reason is one line of printable ASCII without a line end, as
 *
 *         The value of BURST is outside its range: it is 0.
 *         The slots used at depth 0 are more than can be reserved: 10 used and 7 reservable.
 *
 *     with the column's name or the depth, and the values that were compared. Number and place can be had again from it
 *     (planner_read_reason). Reasons of 1 to 7 come from planner_explain_row, those of node lists from planner_explain_tree. Number 8 of
 *     planner_plan_row and planner_plan_tree concerns no value that was handed over: planner_explain_refusal(8, 0, ..) puts its line, and
 *     likewise that of 9, which programs give that limit their input.
 *
 * What the caller sees to
 *
 *     - Each pointer is valid for as many bytes as the length beside it: names, row, nodes and a line that is read for reading, text and
 *       a line that is put for reading and writing.
 *     - A pointer beside length 0 is not used and may be NULL: no names (1), a row without values (2, place 1), no nodes (10), no room for
 *       a text or a line (8), a line that is no reason.
 *     - What is written does not overlap what is read, and nobody else changes any of it during the call.
 *     - No length is above PTRDIFF_MAX (no object of C is).
 *     - 16 KB of stack are free (under 10 KB were measured, for a tree of 12 depths); for the entries for trees 128 KB (under 90 KB were
 *       measured, for a chain of 254 nodes).
 *
 * Calls may be made from several threads at once, each with its own buffer.
 */
#ifndef PLANNER_H
#define PLANNER_H

#include <stddef.h>
#include <stdint.h>

#ifdef __cplusplus
extern "C" {
#endif

/* No plan's text is longer: a buffer of this length is never refused with 8. */
#define PLANNER_LONGEST_TEXT 4476

/* No text of a node list's plan is longer: a buffer of this length is never refused with 8. */
#define PLANNER_LONGEST_TREE_TEXT 48576

/* No line of English is longer: a buffer of this length is never refused with 8. */
#define PLANNER_LONGEST_REASON 160

typedef struct planner_answer {
    uint32_t number; /* 0: planned; else the refusal's number */
    uint32_t place;  /* the refusal's place: a column, a depth, a line, a node, or 0 */
    uint64_t length; /* the text's length in bytes; 0 where refused */
} planner_answer;

typedef struct planner_refusal {
    uint32_t number; /* the refusal's number; 0: none */
    uint32_t place;  /* its place */
} planner_refusal;

/*
 * Plans a row and writes nothing: number, place and the length of the plan's text. Number 8 is never answered.
 */
planner_answer planner_check_row(const uint8_t *names, size_t names_length, const uint8_t *row, size_t row_length);

/*
 * Plans a row and puts the plan's text at the front of text; the bytes behind it keep their values. Where the row is refused, also with
 * 8, every byte of text keeps its value. text_length may be 0; the text's own length is enough.
 */
planner_answer planner_plan_row(const uint8_t *names, size_t names_length, const uint8_t *row, size_t row_length, uint8_t *text,
                                size_t text_length);

/*
 * Plans a row and puts one line of English at the front of line: why the row is refused with one of numbers 1 to 7, or 'The row is
 * planned.'. The answer has number and place of the refusal, 0 and 0 where the row is planned, and the line's length. The bytes behind
 * the line keep their values. Where line_length is less than the line's length the answer is 8, 0, 0, and every byte keeps its value.
 */
planner_answer planner_explain_row(const uint8_t *names, size_t names_length, const uint8_t *row, size_t row_length, uint8_t *line,
                                   size_t line_length);

/*
 * Plans the tree of a node list and writes nothing: number, place and the length of the plan's text. Number 8 is never answered.
 */
planner_answer planner_check_tree(const uint8_t *nodes, size_t nodes_length, uint32_t bo, uint32_t so, uint32_t head, uint32_t data,
                                  uint32_t ack, uint32_t sink, uint32_t loss);

/*
 * Plans the tree of a node list and puts the plan's text at the front of text; the bytes behind it keep their values. Where it is refused,
 * also with 8, every byte of text keeps its value. text_length may be 0; the text's own length is enough, and
 * PLANNER_LONGEST_TREE_TEXT spares planning twice.
 */
planner_answer planner_plan_tree(const uint8_t *nodes, size_t nodes_length, uint32_t bo, uint32_t so, uint32_t head, uint32_t data,
                                 uint32_t ack, uint32_t sink, uint32_t loss, uint8_t *text, size_t text_length);

/*
 * Plans the tree of a node list and puts one line of English at the front of line: why it is refused, or 'The tree is planned.'. Otherwise
 * as planner_explain_row.
 */
planner_answer planner_explain_tree(const uint8_t *nodes, size_t nodes_length, uint32_t bo, uint32_t so, uint32_t head, uint32_t data,
                                    uint32_t ack, uint32_t sink, uint32_t loss, uint8_t *line, size_t line_length);

/*
 * Puts the line of a refusal that number and place alone determine: 1, 8 and 9, each at place 0. The answer is 0, 0 and the line's
 * length; for any other number and place 0, 0, 0, and nothing is put. 8, 0, 0 as above.
 */
planner_answer planner_explain_refusal(uint32_t number, uint32_t place, uint8_t *line, size_t line_length);

/*
 * Number and place of the refusal whose line it is; 0 and 0 where the line is no reason. A line that a call above put is read as the
 * number and the place that it is of; a line is a reason only if it is the line of some refusal, to the last byte.
 */
planner_refusal planner_read_reason(const uint8_t *line, size_t line_length);

/*
 * The table of exchange times that plans are made with: X, how many symbols of 16 microseconds the exchange of one frame lasts where no try
 * fails, of as many octets (HEAD + DATA), 6 to 127, without acknowledgement (ack 0) or with (ack 1). For any other octets or ack the answer is 0, which no
 * exchange lasts. A printed table is held against it line by line: octets rise from 6, each without and then with acknowledgement.
 */
uint32_t planner_exchange_time(uint32_t octets, uint32_t ack);

#ifdef __cplusplus
}
#endif

#endif
