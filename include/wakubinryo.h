/*
 * wakubinryo: QCIR files to prenex QCIR and QDIMACS files, in one call
 * (wakubinryo_lift_text) or step by step: files to formula tables, these to
 * prenex forms, and forms to files. And growth reports: what lifting makes of
 * many files.
 *
 * FORMULA TABLES
 *
 * A formula table is a run of 32-bit words, four to a node, and a list of
 * variable numbers. Nodes count from 0, the last node is the root, and fields
 * not named here are 0.
 *
 *   kind  meaning        fields
 *   1     constant       value 0 or 1
 *   2     variable       its number, 1 to 65,535
 *   3     not            operand
 *   4     operator       truth table 0 to 15, left, right
 *   5     exists block   first list entry, count, body
 *   6     for-all block  first list entry, count, body
 *
 * An operator's value is bit (2 * left + right) of its truth table: and is 8,
 * or 14, xor 6, biconditional 9, left implies right 11. A block binds the
 * `count` entries of the list from `first` on, its range. A count is not 0, and
 * ranges may overlap; entries in no range are never looked at. Operands and
 * bodies have lower indices than the node that names them, and each node but
 * the last is named exactly once.
 *
 * A block whose count is 0 is an empty block. Of all calls that take a table,
 * wakubinryo_remove_empty_blocks alone takes one that has them.
 *
 * In what follows n is the number of nodes, b of blocks, q the sum of their
 * counts and d the quantifier depth: the largest number of blocks on a path
 * from the root.
 *
 * PRENEX FORMS
 *
 * A prenex form is a run of nodes of kinds 1 to 4, four words each, the last
 * being its root; a prefix of blocks, three words each (kind 5 or 6, first,
 * count); and a list of prefix variables, in which the blocks' ranges follow
 * one another. Block 0 is the outermost. Names in a form may pass 65,535.
 *
 * ANSWERS AND REFUSALS
 *
 * An answer is a run of words, each named by its index in the enums below. It
 * begins with the number (WAKUBINRYO_NUMBER): 0 if done, else the first of
 * these that applies; and the position (WAKUBINRYO_POSITION): the node, byte or
 * name that the tables here give, else 0. An answer about a table goes on with
 * two users (WAKUBINRYO_FIRST_USER, WAKUBINRYO_SECOND_USER): with number 8 the
 * two lowest nodes that name the node at the position, a node that names it
 * twice standing twice; 0 and 0 if no node names it, and with every other
 * number. The other words are sizes, all 0 on refusal.
 *
 *   number  given when                                                position
 *   1       there are no words, or not a multiple of four             0
 *   2       over 4,096 nodes or list entries                          0
 *   3       a kind not 1 to 6, or a constant, variable number, truth  node
 *           table or unused field outside its range
 *   4       an operand or body at or above its own node               node
 *   5       first + count passes the end of the list                  node
 *   16      a block's count is 0                                      node
 *   6       this block's count brings the sum of counts over 4,096    node
 *   7       an entry of the range is outside 1 to 65,535, or stands   node
 *           in this range twice
 *   8       the lowest node below the last that isn't named exactly   node
 *           once
 *   9       an output buffer is shorter than the size needed          0
 *
 * Order: 1, 2; then the nodes upward, each tested for 3, 4, 5, 16, 6 and 7 in
 * this order; then 8; then 9. Of a table nothing else is ever refused.
 *
 * QCIR TEXTS
 *
 * A QCIR text is read into a formula table within these limits: at most 65,536
 * bytes; names are decimal numbers 1 to 65,535 without leading zeros; keywords
 * are in lower case; `ite` is not read. Spaces and tabs may stand around words
 * and signs, a line ends at LF or at the text's end, and blank lines and, after
 * the header, lines whose first sign is # are skipped.
 *
 *   #QCIR-G14 or #QCIR-G14 and a count           the header, at byte 0
 *   free(x, ..)                                  at most one
 *   exists(x, ..), forall(x, ..)                 any number, first outermost
 *   output(l)                                    one
 *   g = and(l, ..), g = or(l, ..)                gates, with any number of
 *   g = xor(l, l)                                inputs, with two,
 *   g = exists(x, ..; l), g = forall(x, ..; l)   or quantified
 *
 * An input or the output l is a name, or a minus sign and a name. A list of
 * variables has at least one; the free line stands before the prefix lines. A
 * carriage return is no space, and a # after another sign starts no comment.
 * The refusals of reading are 2, 6 and 9 above, 2 for nodes only, and these:
 *
 *   number  given when                                                position
 *   10      the text is over 65,536 bytes                             0
 *           no file can go on here, or the text ends before a file    byte
 *           does
 *   11      a gate is defined twice, or its name stands in a list     byte
 *           too; an input of a gate line names a gate of this or a
 *           later line; a name stands twice in one list, or in the
 *           free and prefix lines together: at the first digit of
 *           the later place or early use, the lowest such byte
 *   13      a gate is not used exactly once                           its name
 *   12      no block above binds a variable, and no free line names   its name
 *           it
 *
 * Order: 10, 11, 13, 12, 2, 6, 9; of several names the lowest is the position.
 *
 * A QCIR text is written from a prenex form: the header without a count; a free
 * line of the numbers, ascending, that stand in no prefix block and occur in
 * a line that follows, if any; a line for each prefix block that isn't empty;
 * the output line; then and and xor gates in node order, numbered from one
 * above the highest number in the free and prefix lines. Not nodes become minus
 * signs, an operator becomes a fixed row (a constant, an operand, and of signed
 * operands, or xor, with a sign on the whole), and an operand that the row
 * ignores isn't written, nor what hangs on it. Constants are and() gates. Each
 * line ends in LF; one space follows a comma and stands on each side of =, and
 * there is no other.
 *
 * The refusals of writing, as QCIR or as QDIMACS, are 9 above and these:
 *
 *   number  given when                                                position
 *   14      the nodes are none, not a multiple of four words or over  0
 *           40,960
 *           a node is malformed (3 above, a block being malformed,    node
 *           names up to 77,823) or names a node not below it (4), or
 *           the nodes are no tree (8)
 *   15      the prefix is no multiple of three words                  0
 *           the first block with a kind not 5 or 6, a range past the  block
 *           list's end, or a name outside 1 to 77,823 or earlier in
 *           the prefix
 *
 * Order: 14, with the nodes upward, each tested for 3 and 4, and then for 8;
 * 15; 9.
 *
 * QDIMACS TEXTS
 *
 * A QDIMACS text is written from a prenex form as clauses over its variables
 * and gate variables. Each operator, not node and constant has a gate variable,
 * and so has the root if it is a variable, its gate being equal to it. They are
 * numbered in node order from one above the highest number at a variable node
 * or in a prefix block, from 1 if there is none.
 *
 *   p cnf V C       the header: highest gate variable, number of clauses
 *   e x .. 0        exists and for-all blocks by turns, the outermost first
 *   a x .. 0
 *   l .. 0          the clauses
 *
 * A literal l is a variable, or a minus sign and a variable. One space stands
 * between words, and each line ends in LF. The blocks are an exists block of
 * the form's free variables, ascending, those too that an operator ignores; the
 * prefix blocks; and an exists block of the gate variables. Empty ones go, then
 * neighbours of one kind are joined, names staying in order.
 *
 * Gates come in node order, each with a clause for every row of its meaning:
 * one for a constant, two for a not node or a variable, four for an operator,
 * from false to true with left leading. A clause has the literals of left,
 * right and gate, in this order: an operand's is the one that is false in the
 * row, the gate's has a minus sign if the row's value is 0. A literal that
 * comes twice in a clause is written once, and a clause with a variable and its
 * opposite isn't written; equal clauses stay. Last comes the clause of the
 * root's gate alone.
 *
 * FROM TEXT TO TEXT
 *
 * The calls from a text to a text begin with a QCIR text. Their refusals are
 * those of reading, as if there were room for every table (10, 11, 13, 12, 2
 * and 6, with the positions above), then 9, and these:
 *
 *   number  given when                                                position
 *   23      the format is neither WAKUBINRYO_QCIR nor                 0
 *           WAKUBINRYO_QDIMACS: nothing else is looked at
 *   24      memory lent for the nodes of the prenex form is shorter   0
 *           than these
 *
 * Order: 23, 10, 11, 13, 12, 2, 6, 24, 9.
 *
 * GROWTH REPORTS
 *
 * A growth report has a line of figures for each of up to 256 files, and the
 * totals. A line of figures is seven 32-bit words: the number of a refusal or
 * 0; n, b, q and d of the file's table; and the nodes and prefix variables of
 * its prenex form. If the number is not 0 the other six are read as zeros,
 * whatever they are. Number 22 says that the file could not be read: no call
 * here answers it, since none opens a file.
 *
 * Names stand in a text, one a line. Empty lines are skipped, the last line
 * ends with or without LF, and a name is any bytes but LF.
 *
 *   number  given when                                                position
 *   20      there are over 256 names, or over 256 lines of figures    0
 *   21      a name is over 255 bytes                                  0
 *   1       the words are no multiple of seven, or, where there are   0
 *           names, not seven for each of them
 *
 * Order: of names 20, 21; of lines of figures 1, 20; of a report 20, 21, 1, 9.
 *
 * The growth of a file is its nodes written over its input nodes. The file that
 * grew most is the first of those than which none grew more, by fractions of
 * whole numbers; a file with 0 input nodes takes no part.
 *
 * MEMORY
 *
 * All lengths count elements: 32-bit words, or bytes of a text. A call reads
 * what is lent to it as const, writes the answer and the buffers lent to it,
 * and touches nothing else: it allocates nothing and keeps nothing. On refusal
 * no buffer has changed, whatever the buffers held, but for the memory that
 * wakubinryo_lift_text_in works in. If done, a buffer's words after the last one
 * written keep their content. Pointers are aligned and not null, even where the
 * length is 0, and what is written must not overlap anything else lent.
 *
 * The stack of a thread that calls must have room for this; it is measured, not
 * proved:
 *
 *   wakubinryo_lift_text                                1,344 KiB
 *   wakubinryo_lift_text_in, wakubinryo_measure_text,     704 KiB
 *   reading and writing texts
 *   calls about tables                                    256 KiB
 *   calls about growth reports                             16 KiB
 */
#ifndef WAKUBINRYO_H
#define WAKUBINRYO_H

#include <stddef.h>
#include <stdint.h>

#ifdef __cplusplus
extern "C" {
#endif

/*
 * The version of this interface, raised whenever a caller compiled for the one
 * before would go wrong. Since version 2 the answers about tables have two
 * words more, for the users: a caller that lends the shorter ones is overrun.
 * Since version 3 a table with an empty block is refused by 16 by all calls but
 * wakubinryo_remove_empty_blocks: a caller with stored tables must remove their
 * empty blocks first.
 */
#define WAKUBINRYO_VERSION 3

/* The words of a node, and of a prefix block. */
enum {
    WAKUBINRYO_NODE_WORDS = 4,
    WAKUBINRYO_PREFIX_WORDS = 3
};

/* Where the words of every answer stand; the users, of answers about tables. */
enum {
    WAKUBINRYO_NUMBER = 0,
    WAKUBINRYO_POSITION = 1,
    WAKUBINRYO_FIRST_USER = 2,
    WAKUBINRYO_SECOND_USER = 3
};

/* The answer of measuring and lifting: the sizes, and how many words there are. */
enum {
    WAKUBINRYO_N = 4,          /* nodes of the table */
    WAKUBINRYO_B = 5,          /* its blocks */
    WAKUBINRYO_Q = 6,          /* the sum of their counts */
    WAKUBINRYO_DEPTH = 7,      /* the quantifier depth, d */
    WAKUBINRYO_NODES = 8,      /* nodes of the prenex form */
    WAKUBINRYO_BLOCKS = 9,     /* its prefix blocks */
    WAKUBINRYO_VARIABLES = 10, /* its prefix variables */
    WAKUBINRYO_SIZES_ANSWER = 11
};

/* The answer of listing free variables. */
enum {
    WAKUBINRYO_COUNT = 4, /* names written */
    WAKUBINRYO_COUNT_ANSWER = 5
};

/* The answer of removing empty blocks. */
enum {
    WAKUBINRYO_LEFT = 4, /* nodes left, and written */
    WAKUBINRYO_LEFT_ANSWER = 5
};

/* The answer of reading a QCIR text. */
enum {
    WAKUBINRYO_WORDS_READ = 2,   /* words of nodes written */
    WAKUBINRYO_ENTRIES_READ = 3, /* list entries written */
    WAKUBINRYO_READ_ANSWER = 4
};

/* The answer of writing a QCIR or QDIMACS text, of 64-bit words. */
enum {
    WAKUBINRYO_BYTES_WRITTEN = 2, /* bytes of the text */
    WAKUBINRYO_WRITE_ANSWER = 3
};

/* The formats of a text that is written. */
enum {
    WAKUBINRYO_QCIR = 1,
    WAKUBINRYO_QDIMACS = 2
};

/*
 * The answer of lifting a text, of 64-bit words: number, position,
 * WAKUBINRYO_BYTES_WRITTEN, and then the sizes of the table that was read and
 * of its prenex form, n, b, q, d, nodes, blocks and variables.
 */
enum {
    WAKUBINRYO_LIFT_TEXT_SIZES = 3, /* the first of the seven sizes */
    WAKUBINRYO_LIFT_TEXT_ANSWER = 10
};

/* The answer of measuring a text: number, position and the same sizes. */
enum {
    WAKUBINRYO_MEASURE_TEXT_SIZES = 2,
    WAKUBINRYO_MEASURE_TEXT_ANSWER = 9
};

/* The words of a line of figures. */
enum {
    WAKUBINRYO_LINE_NUMBER = 0,    /* the number of a refusal, or 0 */
    WAKUBINRYO_LINE_N = 1,         /* n, b, q, d of the file's table */
    WAKUBINRYO_LINE_B = 2,
    WAKUBINRYO_LINE_Q = 3,
    WAKUBINRYO_LINE_DEPTH = 4,
    WAKUBINRYO_LINE_NODES = 5,     /* nodes of its prenex form */
    WAKUBINRYO_LINE_VARIABLES = 6, /* its prefix variables */
    WAKUBINRYO_LINE_WORDS = 7
};

/* The answer of totalling lines of figures, of 64-bit words. */
enum {
    WAKUBINRYO_FILES_READ = 2,    /* lines with another number than 22 */
    WAKUBINRYO_FILES_REFUSED = 3, /* lines with another number than 0 */
    WAKUBINRYO_SUMS = 4,          /* the first of the six sums */
    WAKUBINRYO_MOST_WRITTEN = 10, /* of the file that grew most: its nodes */
    WAKUBINRYO_MOST_INPUT = 11,   /* written and its input nodes, or 0 and 0 */
    WAKUBINRYO_GROWTH_ANSWER = 12
};

/* The answer of counting names. */
enum {
    WAKUBINRYO_NAMES = 2, /* how many there are */
    WAKUBINRYO_NAMES_ANSWER = 3
};

/* Bytes that are always enough for a growth report. */
#define WAKUBINRYO_REPORT_ROOM ((size_t)103384)

/*
 * Bytes that are always enough for the QCIR text of a form with so many nodes,
 * prefix blocks and list entries.
 */
#define WAKUBINRYO_TEXT_ROOM(nodes, blocks, entries) \
    (31 * ((size_t)(nodes) + 1) + 7 * (size_t)(blocks) + 8 * (size_t)(entries))

/* The same for the QDIMACS text. */
#define WAKUBINRYO_CLAUSES_ROOM(nodes, blocks, entries) \
    (64 * ((size_t)(nodes) + 1) + 4 * (size_t)(blocks) + 6 * (size_t)(entries))

/*
 * Bytes that are always enough for the text that wakubinryo_lift_text writes,
 * by format: a prenex form has at most 40,960 nodes, 4,097 prefix blocks and
 * 12,288 prefix variables. And 32-bit words that are always enough for its
 * nodes.
 */
#define WAKUBINRYO_QCIR_ROOM WAKUBINRYO_TEXT_ROOM(40960, 4097, 12288)
#define WAKUBINRYO_QDIMACS_ROOM WAKUBINRYO_CLAUSES_ROOM(40960, 4097, 12288)
#define WAKUBINRYO_NODES_ROOM (WAKUBINRYO_NODE_WORDS * (size_t)40960)

/*
 * Lifts a QCIR text: reads it, lifts its table and writes the prenex form as a
 * text in a format, WAKUBINRYO_QCIR or WAKUBINRYO_QDIMACS.
 *
 * Numbers 0, 2, 6, 9 to 13 and 23. If done, out holds the bytes of the text,
 * bytes after the last one keep their content, and the sizes are those of
 * wakubinryo_measure_text. It gives 9 exactly if no other refusal applies and
 * out is shorter than the text; WAKUBINRYO_QCIR_ROOM or WAKUBINRYO_QDIMACS_ROOM
 * bytes are always enough.
 *
 * From bytes to bytes: a QCIR text that is written spells exactly one file, and
 * this has the truth value of the file in text under every valuation. A QDIMACS
 * text says exactly one problem, and this is true exactly if some valuation of
 * the free variables of the file in text makes that file true. The prenex form
 * has at most n + 5 b + 4 q nodes, 2 q + b prefix variables and d + 1 prefix
 * blocks, and its text at most WAKUBINRYO_TEXT_ROOM or WAKUBINRYO_CLAUSES_ROOM
 * of its own sizes. Every text has one answer, and with it one content of out.
 */
void wakubinryo_lift_text(const uint8_t *text, size_t text_len,
                          uint32_t format,
                          uint8_t *out, size_t out_len,
                          uint64_t answer[WAKUBINRYO_LIFT_TEXT_ANSWER]);

/*
 * The same with memory lent for the nodes of the prenex form, for threads with
 * a small stack. It gives 24 exactly if no refusal of reading applies and nodes
 * is shorter than WAKUBINRYO_NODE_WORDS words for each node of the form;
 * WAKUBINRYO_NODES_ROOM words are always enough. Else answer and out are those
 * of wakubinryo_lift_text. If it gives 0 or 9, the form's nodes stand at the
 * start of nodes; if it gives another number, nodes is as it was.
 */
void wakubinryo_lift_text_in(const uint8_t *text, size_t text_len,
                             uint32_t format,
                             uint32_t *nodes, size_t nodes_len,
                             uint8_t *out, size_t out_len,
                             uint64_t answer[WAKUBINRYO_LIFT_TEXT_ANSWER]);

/*
 * Measures a QCIR text: reads it and measures its table.
 *
 * Numbers 0, 2, 6 and 10 to 13. If done, the sizes are those that
 * wakubinryo_measure gives of the table, and those that wakubinryo_lift_text
 * answers in either format.
 */
void wakubinryo_measure_text(const uint8_t *text, size_t text_len,
                             uint32_t answer[WAKUBINRYO_MEASURE_TEXT_ANSWER]);

/*
 * Measures a table.
 *
 * Numbers 0 to 8 and 16; measuring never gives 9. If done, the sizes are n, b,
 * q, d and the nodes, prefix blocks and prefix variables of the prenex form,
 * and the last three are exactly what wakubinryo_lift writes.
 */
void wakubinryo_measure(const uint32_t *words, size_t words_len,
                        const uint32_t *list, size_t list_len,
                        uint32_t answer[WAKUBINRYO_SIZES_ANSWER]);

/*
 * Lifts a table: writes its prenex form.
 *
 * Numbers 0 to 9 and 16. If done, the sizes are those of wakubinryo_measure,
 * and
 *
 *   nodes      holds the form's nodes,            4 words each
 *   prefix     holds the form's prefix blocks,    3 words each
 *   variables  holds the form's prefix variables, 1 word each
 *
 * It gives 9 exactly if the table is accepted and one of the three buffers is
 * shorter than that.
 *
 * The form has the table's truth value under every valuation, that is, for
 * all values of the variables; its free variables are the table's, and no
 * other number's value changes the truth value. Its prefix variables are
 * distinct, and none of them stands at a variable node of the table or in a
 * block's range; no prefix block is empty. Its names and the order of its nodes
 * are document 01's. It has at most
 *
 *   n + 5 b + 4 q  nodes,
 *   2 q + b        prefix variables,
 *   d + 1          prefix blocks, and none if the table has no blocks.
 *
 * A table always gives the same form, whatever the buffers held. Two tables
 * give equal forms exactly if they agree node for node but for the numbers of
 * bound variables and where ranges begin, each bound variable node belonging to
 * the same block and the same position in its range, and the highest numbers at
 * their variable nodes and in their ranges are equal.
 */
void wakubinryo_lift(const uint32_t *words, size_t words_len,
                     const uint32_t *list, size_t list_len,
                     uint32_t *nodes, size_t nodes_len,
                     uint32_t *prefix, size_t prefix_len,
                     uint32_t *variables, size_t variables_len,
                     uint32_t answer[WAKUBINRYO_SIZES_ANSWER]);

/*
 * Lists a table's free variables: the numbers with a variable node that no
 * block above it covers. A number that is free in one place and bound in
 * another is among them.
 *
 * Numbers 0 to 9 and 16. If done, the count is how many they are, and names
 * holds them, ascending and once each. It gives 9 exactly if the table is
 * accepted and names is shorter than that. 2,048 words are always enough,
 * because a tree of 4,096 nodes has at most 2,048 leaves.
 *
 * The table's truth value depends on the values of these variables alone, and
 * they are the free variables of the form that wakubinryo_lift writes.
 */
void wakubinryo_free_variables(const uint32_t *words, size_t words_len,
                               const uint32_t *list, size_t list_len,
                               uint32_t *names, size_t names_len,
                               uint32_t answer[WAKUBINRYO_COUNT_ANSWER]);

/*
 * Removes the empty blocks of a table: writes its nodes without them, 4 words
 * each, the body being named where the block was and what follows renumbered in
 * order. The list stays as it is.
 *
 * Numbers 0 to 9. If done, the nodes left are n less the empty blocks, and
 * nodes holds them. It gives 9 exactly if none of 1 to 8 applies and nodes is
 * shorter than that; words_len words are always enough. With number 8 the
 * position and the users are indices in the table lent.
 *
 * What is written, with the same list, is accepted by the other calls. It has
 * the table's truth value under every valuation, and its free variables. A
 * table without empty blocks is written word for word.
 */
void wakubinryo_remove_empty_blocks(const uint32_t *words, size_t words_len,
                                    const uint32_t *list, size_t list_len,
                                    uint32_t *nodes, size_t nodes_len,
                                    uint32_t answer[WAKUBINRYO_LEFT_ANSWER]);

/*
 * Reads a QCIR text into a formula table.
 *
 * Numbers 0, 2, 6 and 9 to 13. If done,
 *
 *   words  holds the table's nodes, 4 words each
 *   list   holds its list,          1 word an entry
 *
 * in the order of the text: gate line by gate line, inputs from left to right,
 * each with its not node, an operator right after its second operand; then the
 * output; then the prefix lines as blocks, the last line lowest. Ranges follow
 * one another in node order. It gives 9 exactly if no other refusal applies and
 * one of the two buffers is shorter than that; 16,384 and 4,096 words are
 * always enough.
 *
 * Every text has one answer, and with it one content of the buffers. The table
 * is accepted by the calls above and has the file's truth value under every
 * valuation.
 */
void wakubinryo_read_qcir(const uint8_t *text, size_t text_len,
                          uint32_t *words, size_t words_len,
                          uint32_t *list, size_t list_len,
                          uint32_t answer[WAKUBINRYO_READ_ANSWER]);

/*
 * Writes a prenex form as a QCIR text.
 *
 * Numbers 0, 9, 14 and 15. The answer is of 64-bit words: a prefix may have
 * more empty blocks than 32 bits count. If done, text holds the bytes of the
 * text, and bytes after the last one keep their content. It gives 9 exactly if
 * neither 14 nor 15 applies and text is shorter than that;
 * WAKUBINRYO_TEXT_ROOM is always enough. A form that wakubinryo_lift writes is
 * never refused by 14 or 15.
 *
 * The text spells exactly one QCIR file, and this has the form's truth value
 * under every valuation: so what wakubinryo_read_qcir reads, lifted and written,
 * is a file with the first one's truth value. No gate of it is misplaced or
 * used other than once, and every variable is bound or in the free line. Read
 * again with the prefix lines as prefix, and written again, it gives the same
 * bytes.
 */
void wakubinryo_write_qcir(const uint32_t *nodes, size_t nodes_len,
                           const uint32_t *prefix, size_t prefix_len,
                           const uint32_t *variables, size_t variables_len,
                           uint8_t *text, size_t text_len,
                           uint64_t answer[WAKUBINRYO_WRITE_ANSWER]);

/*
 * Writes a prenex form as a QDIMACS text.
 *
 * Numbers 0, 9, 14 and 15, and the answer as for wakubinryo_write_qcir. If
 * done, text holds the bytes of the text, and bytes after the last one keep
 * their content. It gives 9 exactly if neither 14 nor 15 applies and text is
 * shorter than that; WAKUBINRYO_CLAUSES_ROOM is always enough. A form that
 * wakubinryo_lift writes is never refused by 14 or 15.
 *
 * The text is true exactly if some valuation of the form's free variables makes
 * the form true: so what wakubinryo_read_qcir reads, lifted and written, is
 * true exactly if some valuation of the read file's free variables makes that
 * file true. The header's numbers are the highest number in the text's blocks
 * and clauses and the number of its clauses. No clause is empty or has a
 * variable twice, and every variable of a clause stands in exactly one block.
 * Exists and for-all blocks alternate, none is empty, and the last is an exists
 * block.
 */
void wakubinryo_write_qdimacs(const uint32_t *nodes, size_t nodes_len,
                              const uint32_t *prefix, size_t prefix_len,
                              const uint32_t *variables, size_t variables_len,
                              uint8_t *text, size_t text_len,
                              uint64_t answer[WAKUBINRYO_WRITE_ANSWER]);

/*
 * Totals lines of figures: how many files were read and how many refused, the
 * sums of the six figures, and the growth of the file that grew most.
 *
 * Numbers 0, 1 and 20. No sum wraps.
 */
void wakubinryo_growth(const uint32_t *lines, size_t lines_len,
                       uint64_t answer[WAKUBINRYO_GROWTH_ANSWER]);

/*
 * Counts the names in a text. Numbers 0, 20 and 21.
 */
void wakubinryo_names(const uint8_t *names, size_t names_len,
                      uint32_t answer[WAKUBINRYO_NAMES_ANSWER]);

/*
 * Writes a growth report: for each name a line of the name and the seven
 * figures of the line at the same index, the last six as zeros if it is
 * refused; and then a line of `total` and the ten words of wakubinryo_growth's
 * answer after the position. Single spaces stand between, and each line ends
 * in LF.
 *
 * Numbers 0, 1, 9, 20 and 21. The answer is of 64-bit words, as for
 * wakubinryo_write_qcir. If done, out holds the bytes of the report, and bytes
 * after the last one keep their content. It gives 9 exactly if no other
 * refusal applies and out is shorter than that; WAKUBINRYO_REPORT_ROOM is
 * always enough.
 */
void wakubinryo_report(const uint8_t *names, size_t names_len,
                       const uint32_t *lines, size_t lines_len,
                       uint8_t *out, size_t out_len,
                       uint64_t answer[WAKUBINRYO_WRITE_ANSWER]);

#ifdef __cplusplus
}
#endif

#endif
