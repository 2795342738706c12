/* Strumelka, the proved reasoner: what a C or C++ program links from libstrumelka.a.
 *
 * A net has o objects and k kinds. Nodes 0 to o - 1 are the objects, nodes o to o + k - 1 the kinds. A link is one
 * 32-bit word, STRUMELKA_WORD(tail, head, sign): its tail is any node, its head a kind, its sign says "is" or "is not".
 * Words stand in any order and may repeat.
 *
 * Who entered a link is its origin, 0 to 3: STRUMELKA_WORD(tail, head, sign) + STRUMELKA_ORIGIN(i) is a link of origin i.
 * A set of origins goes with the words, and a net is read as if it had no links but theirs; what several of them say
 * counts once. The words of other origins must be legal too, and they count in lengths and in an index.
 *
 * No call needs a check before it: every number and every length is accepted, and a call that cannot be done answers
 * its number and leaves the buffers as that number's line says. What the caller owes is what C itself cannot say:
 *
 *   - A buffer is a pointer and a length, the length counted in elements, not in bytes. All its elements are readable,
 *     and writable where the pointer is not const.
 *   - A buffer that is written overlaps no other buffer of the same call.
 *   - No pointer is null, and each is aligned for its type. This holds for an empty buffer too: pass the address of any
 *     object of the element's type with length 0. Nothing is read or written through it.
 *
 * What no line names keeps its contents: marks from o + k on, the scratch from 2 * (o + k) on, and, but for a compaction,
 * a list after what is written to its front hold afterwards what they held before.
 *
 * The library keeps nothing between calls, allocates nothing and calls nothing but memory functions of the C library:
 * calls from several threads may run at once where none writes to a buffer that another one reads or writes. The code is
 * for x86-64 and the System V calling convention.
 */
#ifndef STRUMELKA_H
#define STRUMELKA_H

#include <stddef.h>
#include <stdint.h>

#ifdef __cplusplus
extern "C" {
#endif

/* The most nodes a net may have, objects and kinds together, and the most words, repeats counted. */
#define STRUMELKA_NODE_LIMIT 1024u
#define STRUMELKA_WORD_LIMIT 2097152u

/* The two signs of a link and of a statement. */
#define STRUMELKA_IS 0u
#define STRUMELKA_IS_NOT 1u

/* The plain word of a link, which has origin 0, and what origin i adds to it. The tail is below STRUMELKA_NODE_LIMIT: a
 * greater one runs into the origin. */
#define STRUMELKA_WORD(tail, head, sign) ((uint32_t)(tail) * 2048u + (uint32_t)(head) * 2u + (uint32_t)(sign))
#define STRUMELKA_ORIGIN(i) ((uint32_t)(i) * 2097152u)

/* A word's four parts, and the word without its origin. */
#define STRUMELKA_ORIGIN_OF(word) ((uint32_t)(word) / 2097152u)
#define STRUMELKA_PLAIN(word) ((uint32_t)(word) % 2097152u)
#define STRUMELKA_TAIL(word) (STRUMELKA_PLAIN(word) / 2048u)
#define STRUMELKA_HEAD(word) ((uint32_t)(word) / 2u % 1024u)
#define STRUMELKA_SIGN(word) ((uint32_t)(word) % 2u)

/* Sets of origins: that of origin i alone, none and all. STRUMELKA_FROM(0) | STRUMELKA_FROM(2) has two, and
 * STRUMELKA_ALL_ORIGINS & ~STRUMELKA_FROM(2) leaves one out. Plain words, and so those of a completed list, are read with
 * a set that has origin 0. */
#define STRUMELKA_FROM(i) ((uint32_t)1u << (i))
#define STRUMELKA_NO_ORIGIN 0u
#define STRUMELKA_ALL_ORIGINS 15u

/* Buffer sizes for a net of o objects and k kinds, and of so many words, in elements; constant where these are.
 * MARKS, SCRATCH, ROWS, DROPPED_LIST and TABLE are what a call needs, and less is refused. REASON_LIST, LINES_LIST,
 * COMPLETION_LIST and PROOF_LIST are the most that any net of that size can need: a shorter list is fine where the result
 * fits it. The most lines are those of a path up all kinds to one that is not itself and down again, from an object if there
 * is one: 4 * k - 1 of an object, 4 * k - 2 of a kind, 1 where a single kind is all there is. */
#define STRUMELKA_MARKS(o, k) ((size_t)(o) + (size_t)(k))
#define STRUMELKA_SCRATCH(o, k) (2u * STRUMELKA_MARKS(o, k))
#define STRUMELKA_ROWS(o, k) (STRUMELKA_MARKS(o, k) * ((STRUMELKA_MARKS(o, k) + 63u) / 64u))
#define STRUMELKA_REASON_LIST(o, k) ((size_t)2 + 2u * (size_t)(k) + ((o) > 0 ? 1u : 0u))
#define STRUMELKA_LINES_LIST(o, k) \
    ((size_t)(k) < 2u ? ((o) > 0 ? 12u : 4u) * (size_t)(k) : 16u * (size_t)(k) - ((o) > 0 ? 4u : 8u))
#define STRUMELKA_COMPLETION_LIST(o, k) (2u * STRUMELKA_MARKS(o, k) * (size_t)(k))
#define STRUMELKA_DROPPED_LIST(words) ((size_t)3 * (size_t)(words))
#define STRUMELKA_TABLE(o, k) (STRUMELKA_MARKS(o, k) * (size_t)(k))
#define STRUMELKA_PROOF_LIST(o, k) \
    ((size_t)(k) < 128u ? 16u * (size_t)(k) + 1u : (o) > 0 ? (size_t)2038u : (size_t)2033u)

/* The bits of a byte of marks. */
#define STRUMELKA_MARK_T 1u
#define STRUMELKA_MARK_F 2u
#define STRUMELKA_MARK_U 4u

/* What a place of the scratch holds where no way leads to the end. */
#define STRUMELKA_NO_WAY 65535u

/* The answer to a question, and what stands for it in a screenful where a pair is bad. */
#define STRUMELKA_ANSWER_NONE 0u
#define STRUMELKA_ANSWER_YES 1u
#define STRUMELKA_ANSWER_NO 2u
#define STRUMELKA_ANSWER_BOTH 3u
#define STRUMELKA_ANSWER_BAD_PAIR 255u

/* The most pairs of a screenful. */
#define STRUMELKA_PAIR_LIMIT 64u

/* Which list is too short for an explanation. */
#define STRUMELKA_SHORT_REASON 0u
#define STRUMELKA_SHORT_LINES 1u

/* A line of a derivation has four places, and lines are numbered from 0. At these places of the list line i has its
 * statement as a plain word, its ground, and up to two numbers, 0 where the ground uses none. */
#define STRUMELKA_LINE_PLACES 4u
#define STRUMELKA_LINE_STATEMENT(i) ((size_t)4 * (size_t)(i))
#define STRUMELKA_LINE_GROUND(i) ((size_t)4 * (size_t)(i) + 1u)
#define STRUMELKA_LINE_FIRST(i) ((size_t)4 * (size_t)(i) + 2u)
#define STRUMELKA_LINE_SECOND(i) ((size_t)4 * (size_t)(i) + 3u)

/* The ground of a line: a link, and its first number is the index of that word among all words; or a rule, and its numbers
 * are the lines above it that say what the rule needs, in the order given here. p, q and r are kinds, a is an object, x is
 * either. */
#define STRUMELKA_GROUND_LINK 0u
#define STRUMELKA_GROUND_RULE_1 1u /* (3.1): p is p */
#define STRUMELKA_GROUND_RULE_2 2u /* (3.2): x is q, and q is r; so x is r */
#define STRUMELKA_GROUND_RULE_3 3u /* (3.3): p is not q; so q is not p */
#define STRUMELKA_GROUND_RULE_4 4u /* (3.4): x is q, and q is not r; so x is not r */
#define STRUMELKA_GROUND_RULE_5 5u /* (3.5): p is q, and a is not q; so a is not p */

/* The most sequents one above another in a proof, and what the check of a proof gives where no one step is at fault. */
#define STRUMELKA_SEQUENT_LIMIT 255u
#define STRUMELKA_NO_STEP 4294967295u

/* The rules of a proof, the first number of each step. An axiom is a link of an object, or a statement that a rule has
 * added. A right rule shows a statement about a kind by one about a fresh object. A left rule goes by a link between two
 * kinds, tail and head, and by an object: it shows the statement of its left premise, and its main premise may use another. */
#define STRUMELKA_RULE_AXIOM_IS 0u
#define STRUMELKA_RULE_AXIOM_IS_NOT 1u
#define STRUMELKA_RULE_RIGHT_IS 2u
#define STRUMELKA_RULE_RIGHT_IS_NOT 3u
#define STRUMELKA_RULE_LEFT_IS 4u          /* "is": shows that the object is of the tail, adds that it is of the head */
#define STRUMELKA_RULE_LEFT_IS_BACK 5u     /* "is": shows that it is not of the head, adds that it is not of the tail */
#define STRUMELKA_RULE_LEFT_IS_NOT 6u      /* "is not": shows that it is of the tail, adds that it is not of the head */
#define STRUMELKA_RULE_LEFT_IS_NOT_BACK 7u /* "is not": shows that it is of the head, adds that it is not of the tail */

/* The marker unit has eight markers, 0 to 7. Marker i is bit i of a node's byte of marks: T, F and U of a scan are the first
 * three. A set of markers has bit i for marker i. */
#define STRUMELKA_MARKER_T 0u
#define STRUMELKA_MARKER_F 1u
#define STRUMELKA_MARKER_U 2u
#define STRUMELKA_ALL_MARKERS 255u

/* Which end of a link a command tests, and which it marks. */
#define STRUMELKA_TAIL_TO_HEAD 0u
#define STRUMELKA_HEAD_TO_TAIL 1u

/* The commands of the unit, a word each: take the markers of a set from every node; put a marker at a node; put a marker at
 * the far end of every link of the sign that has the tested marker at its near end; begin a loop; end it. Each part has to be
 * in its range, else it runs into the next one. */
#define STRUMELKA_COMMAND_CLEAR(markers) ((uint32_t)(markers))
#define STRUMELKA_COMMAND_SET(marker, node) (16777216u + (uint32_t)(marker) * 65536u + (uint32_t)(node))
#define STRUMELKA_COMMAND_LINK(tested, marker, end, sign) \
    (33554432u + (uint32_t)(tested) * 65536u + (uint32_t)(marker) * 256u + (uint32_t)(end) * 2u + (uint32_t)(sign))
#define STRUMELKA_COMMAND_LOOP 50331648u
#define STRUMELKA_COMMAND_END 67108864u

/* The numbers. Where several apply, the one that stands first here is given: 15 comes before 3, 10 before 5, 16 before 6, and
 * 11 before 8. (Number 9 is about net files, which no function here reads.) */
#define STRUMELKA_NUMBER_DONE 0u
#define STRUMELKA_NUMBER_TOO_MANY_NODES 1u
#define STRUMELKA_NUMBER_TOO_MANY_WORDS 2u
#define STRUMELKA_NUMBER_BAD_SET 15u
#define STRUMELKA_NUMBER_ILLEGAL_WORD 3u
#define STRUMELKA_NUMBER_BAD_QUESTION 4u
#define STRUMELKA_NUMBER_BAD_SCREENFUL 10u
#define STRUMELKA_NUMBER_SHORT_BUFFER 5u
#define STRUMELKA_NUMBER_BAD_TABLE 13u
#define STRUMELKA_NUMBER_BAD_PROGRAM 16u
#define STRUMELKA_NUMBER_BUDGET_SPENT 6u
#define STRUMELKA_NUMBER_NOTHING_FOUND 7u
#define STRUMELKA_NUMBER_TOO_DEEP 11u
#define STRUMELKA_NUMBER_SHORT_LIST 8u
#define STRUMELKA_NUMBER_BAD_PROOF 12u

/* Why a word is illegal; the origin is looked at first, then the tail. */
#define STRUMELKA_CAUSE_ORIGIN 3u /* its origin is above 3 */
#define STRUMELKA_CAUSE_TAIL 1u   /* its tail is no node */
#define STRUMELKA_CAUSE_HEAD 2u   /* its head is no kind */

/* What every function answers: the number and up to two values. A value that a line below does not mention is 0. */
struct strumelka_answer {
    uint32_t number;
    uint32_t first;
    uint32_t second;
};

/* The test of a single word, of any origin, for a net of o objects and k kinds.
 *   0  a legal word
 *   1  o + k is over STRUMELKA_NODE_LIMIT, added without wrapping
 *   3  an illegal word; first = 0; second = STRUMELKA_CAUSE_ORIGIN, _TAIL or _HEAD */
struct strumelka_answer strumelka_check_word(uint32_t o, uint32_t k, uint32_t word);

/* The check of a net, with which every function below that takes a set begins.
 *   0   a legal net; first = its nodes, o + k
 *   1   o + k is over STRUMELKA_NODE_LIMIT, added without wrapping
 *   2   words_len is over STRUMELKA_WORD_LIMIT
 *   15  set is over STRUMELKA_ALL_ORIGINS
 *   3   some word, of whatever origin, is illegal; first = the index of the first such word among all words,
 *       second = its cause, STRUMELKA_CAUSE_ORIGIN, _TAIL or _HEAD
 * In every function below 1, 2, 15 and 3 mean the same, with the same values, and all buffers are as they were;
 * compaction and mending, which take plain words and no set, say what is different there. */
struct strumelka_answer strumelka_check_net(
    uint32_t o, uint32_t k, const uint32_t *words, size_t words_len, uint32_t set);

/* The scan from node start, an object or a kind, within budget rounds. T and U begin on start. Afterwards U at a kind
 * means that start is of that kind, and F at a kind that it is not. Where start is a kind, T at any node means that the
 * node is of kind start, and F that it is not. Where start is an object, T stays on start alone, and the bytes of objects
 * say nothing.
 *   0            the scan ended; first = the rounds run, the last one, which set nothing, among them; the first o + k
 *                bytes of marks are the scan's
 *   1, 2, 15, 3  as in strumelka_check_net
 *   4            start is no node; marks unchanged
 *   5            marks_len is below STRUMELKA_MARKS(o, k); marks unchanged
 *   6            the scan needs more rounds than budget; first = budget; marks after exactly that many rounds. What they
 *                say holds, and more may follow
 * A scan takes at most 3 * (o + k) - 1 rounds, so that a budget of that many is always enough. */
struct strumelka_answer strumelka_scan(
    uint32_t o, uint32_t k, const uint32_t *words, size_t words_len, uint32_t set,
    uint32_t start, uint32_t budget, uint8_t *marks, size_t marks_len);

/* The question whether node x is of kind y.
 *   0            first = STRUMELKA_ANSWER_NONE, _YES, _NO or _BOTH; second = the rounds of the scan from x, whose marks
 *                are left in the first o + k bytes
 *   1, 2, 15, 3  as in strumelka_check_net
 *   4            x is no node, or y is no kind; marks unchanged
 *   5            marks_len is below STRUMELKA_MARKS(o, k); marks unchanged */
struct strumelka_answer strumelka_question(
    uint32_t o, uint32_t k, const uint32_t *words, size_t words_len, uint32_t set,
    uint32_t x, uint32_t y, uint8_t *marks, size_t marks_len);

/* A screenful of questions: places 2 * i and 2 * i + 1 of pairs are the x and the y of pair i. Pairs in a row with the
 * same x cost one scan.
 *   0            byte i of answers = the answer to pair i, STRUMELKA_ANSWER_NONE, _YES, _NO or _BOTH, or
 *                STRUMELKA_ANSWER_BAD_PAIR where x is no node or y is no kind; bytes after those of the pairs unchanged.
 *                Marks are as strumelka_question leaves them for the last pair that is not bad, or unchanged if none is
 *   1, 2, 15, 3  as in strumelka_check_net
 *   10           pairs_len is odd or over 2 * STRUMELKA_PAIR_LIMIT, or answers_len is below the number of pairs; answers
 *                and marks unchanged
 *   5            marks_len is below STRUMELKA_MARKS(o, k), without any pair too; answers and marks unchanged */
struct strumelka_answer strumelka_questions(
    uint32_t o, uint32_t k, const uint32_t *words, size_t words_len, uint32_t set,
    const uint16_t *pairs, size_t pairs_len, uint8_t *answers, size_t answers_len,
    uint8_t *marks, size_t marks_len);

/* The completion: every supported statement as a plain word, ascending, none twice.
 *   0            first = the words written to the front of list; places after them unchanged
 *   1, 2, 15, 3  as in strumelka_check_net
 *   5            marks_len is below STRUMELKA_MARKS(o, k); marks and list unchanged
 *   8            list_len is too small; first = the words needed; list unchanged
 * With 0 and 8 the first o + k bytes of marks are zero afterwards. */
struct strumelka_answer strumelka_completion(
    uint32_t o, uint32_t k, const uint32_t *words, size_t words_len, uint32_t set,
    uint8_t *marks, size_t marks_len, uint32_t *list, size_t list_len);

/* The same completion by rows of bits in lent words of 64, far quicker on a large net. With w = (o + k + 63) / 64, row x has
 * the w words from x * w on, and its bit y is bit y % 64 of the word x * w + y / 64. Afterwards that bit is set in yes
 * exactly if the net supports that node x is of kind y, and in no exactly if it supports that x is not, whatever the rows
 * held before. Bits of objects, and those from o + k on, are zero.
 *   0            first = the words written to the front of list; places after them unchanged
 *   1, 2, 15, 3  as in strumelka_check_net
 *   5            yes_len or no_len is below STRUMELKA_ROWS(o, k); yes, no and list unchanged
 *   8            list_len is too small; first = the words needed; list unchanged
 * With 0 and 8 the first STRUMELKA_ROWS(o, k) words of yes and of no are the rows; words after them unchanged. */
struct strumelka_answer strumelka_completion_by_rows(
    uint32_t o, uint32_t k, const uint32_t *words, size_t words_len, uint32_t set,
    uint64_t *yes, size_t yes_len, uint64_t *no, size_t no_len, uint32_t *list, size_t list_len);

/* The question whether node x is of kind y, read off rows that strumelka_completion_by_rows has left: two bits. No net is
 * read and nothing is written, and of rows from elsewhere it is the same two bits.
 *   0  first = STRUMELKA_ANSWER_NONE, _YES, _NO or _BOTH
 *   1  o + k is over STRUMELKA_NODE_LIMIT, added without wrapping
 *   4  x is no node, or y is no kind
 *   5  yes_len or no_len is below STRUMELKA_ROWS(o, k) */
struct strumelka_answer strumelka_answer_in_rows(
    uint32_t o, uint32_t k, const uint64_t *yes, size_t yes_len, const uint64_t *no, size_t no_len,
    uint32_t x, uint32_t y);

/* The clash test: is some node, object or kind, both of some kind and not of it?
 *   0            first = the smallest such node; second = its smallest such kind
 *   1, 2, 15, 3  as in strumelka_check_net
 *   5            marks_len is below STRUMELKA_MARKS(o, k); marks unchanged
 *   7            no node clashes
 * With 0 and 7 the first o + k bytes of marks are zero afterwards. */
struct strumelka_answer strumelka_clash(
    uint32_t o, uint32_t k, const uint32_t *words, size_t words_len, uint32_t set,
    uint8_t *marks, size_t marks_len);

/* Compaction: a list of plain words loses every link that says nothing new. It is sorted where it stands, repeats go, and
 * then, from the highest word down, each link that the links still there, without it, support. The list supports what it
 * did before, and none of its links is supported by the others.
 *   0        first = the words left, which stand ascending in the front of list; the places after them are zero
 *   1, 2, 3  as in strumelka_check_net, the list being the words; a word of STRUMELKA_ORIGIN(1) or more is none of a
 *            plain list, and its cause is STRUMELKA_CAUSE_TAIL
 *   5        marks_len is below STRUMELKA_MARKS(o, k); list and marks unchanged
 * With 0 the first o + k bytes of marks are zero afterwards. */
struct strumelka_answer strumelka_compact(
    uint32_t o, uint32_t k, uint32_t *list, size_t list_len, uint8_t *marks, size_t marks_len);

/* Mending: the plain words are read in their order, and each is kept exactly if those kept before it have no clash together
 * with it. A net without clashes is kept whole, repeats too.
 *   0        first = the words kept, in the front of kept in the order of words; second = the words dropped, each with the
 *            smallest node at which it would have clashed and that node's smallest kind, three places of dropped for each;
 *            places after both unchanged
 *   1, 2, 3  as in strumelka_compact
 *   5        marks_len is below STRUMELKA_MARKS(o, k); kept, dropped and marks unchanged
 *   8        kept_len is below words_len, or dropped_len below STRUMELKA_DROPPED_LIST(words_len), whatever would be
 *            written; first = words_len; kept and dropped unchanged
 * With 0 and 8 the first o + k bytes of marks are zero afterwards. */
struct strumelka_answer strumelka_mend(
    uint32_t o, uint32_t k, const uint32_t *words, size_t words_len,
    uint32_t *kept, size_t kept_len, uint32_t *dropped, size_t dropped_len,
    uint8_t *marks, size_t marks_len);

/* The valuation of the net, a model of its links in which a statement holds exactly if the net supports it. Its elements
 * are the objects and a witness for each kind, in node order: the element of node x has the row of k bytes from x * k on,
 * and the byte of kind y stands at place x * k + (y - o).
 *   0            the byte of every node and kind = STRUMELKA_ANSWER_NONE, _YES, _NO or _BOTH, as strumelka_question
 *                answers; bytes of table after them unchanged; the first o + k bytes of marks are zero
 *   1, 2, 15, 3  as in strumelka_check_net
 *   5            marks_len is below STRUMELKA_MARKS(o, k); table and marks unchanged
 *   13           table_len is below STRUMELKA_TABLE(o, k); table and marks unchanged */
struct strumelka_answer strumelka_valuation(
    uint32_t o, uint32_t k, const uint32_t *words, size_t words_len, uint32_t set,
    uint8_t *table, size_t table_len, uint8_t *marks, size_t marks_len);

/* The test of a statement in a valuation from anybody: node x is of kind y (sign STRUMELKA_IS), or is not
 * (STRUMELKA_IS_NOT). That of an object is read off its byte for y. That of a kind is about every element: "is" holds where
 * each that is of x is of y, and each that is not of y is not of x; "is not" holds where each that is of one of them is
 * not of the other. No net is read and nothing is written.
 *   0   first = 1 if it holds, 0 if not
 *   1   o + k is over STRUMELKA_NODE_LIMIT, added without wrapping
 *   4   x is no node, y is no kind, or sign is neither of the two
 *   13  table_len is below STRUMELKA_TABLE(o, k), or one of that many bytes is over STRUMELKA_ANSWER_BOTH */
struct strumelka_answer strumelka_satisfies(
    uint32_t o, uint32_t k, const uint8_t *table, size_t table_len,
    uint32_t x, uint32_t y, uint32_t sign);

/* The shortest reason for a statement: node x is of kind y (sign STRUMELKA_IS), or is not (STRUMELKA_IS_NOT). The list
 * begins with the sizes of the path's first and second part, and the nodes of both follow.
 *   0            first = the places written to the front of list; places after them unchanged
 *   1, 2, 15, 3  as in strumelka_check_net
 *   4            x is no node, y is no kind, or sign is neither of the two; scratch and list unchanged
 *   5            scratch_len is below STRUMELKA_SCRATCH(o, k); scratch and list unchanged
 *   7            the net does not support the statement; list unchanged
 *   8            list_len is too small; first = the places needed; list unchanged
 * With 0, 7 and 8 place v of scratch holds the fewest links from node v in the first part to the path's end, and place
 * o + k + v the same for node v in the second part, STRUMELKA_NO_WAY where there is none. */
struct strumelka_answer strumelka_reason(
    uint32_t o, uint32_t k, const uint32_t *words, size_t words_len, uint32_t set,
    uint32_t x, uint32_t y, uint32_t sign,
    uint16_t *scratch, size_t scratch_len, uint16_t *list, size_t list_len);

/* The check of a reason from anybody: is list a path of the net that shows the statement, with nothing after it? A path
 * may be longer than the shortest and may repeat kinds. Nothing is written.
 *   0            first = 1 if it is, 0 if not; a list that is empty, cut short or names a node outside the net is not
 *   1, 2, 15, 3  as in strumelka_check_net
 *   4            x is no node, y is no kind, or sign is neither of the two */
struct strumelka_answer strumelka_reason_check(
    uint32_t o, uint32_t k, const uint32_t *words, size_t words_len, uint32_t set,
    uint32_t x, uint32_t y, uint32_t sign,
    const uint16_t *list, size_t list_len);

/* The shortest reason for a statement, and its derivation, which a person can check line by line: each line is a link of
 * the net or follows from lines above it by a rule, and the last one says the statement. A reason of n links has at most
 * 2 * n + 1 lines.
 *   0            first = the places written to the front of lines, STRUMELKA_LINE_PLACES for each; second = the places
 *                written to the front of reason, as strumelka_reason writes them; places after both unchanged
 *   1, 2, 15, 3  as in strumelka_check_net
 *   4            x is no node, y is no kind, or sign is neither of the two; scratch, reason and lines unchanged
 *   5            scratch_len is below STRUMELKA_SCRATCH(o, k); scratch, reason and lines unchanged
 *   7            the net does not support the statement; reason and lines unchanged
 *   8            a list is too small; first = the places that it needs; second = which one it is:
 *                STRUMELKA_SHORT_REASON  reason_len is too small, whatever lines_len is; reason and lines unchanged
 *                STRUMELKA_SHORT_LINES   lines_len is too small; the reason is written as with 0; lines unchanged
 * With 0, 7 and 8 the scratch is as strumelka_reason leaves it. */
struct strumelka_answer strumelka_explain(
    uint32_t o, uint32_t k, const uint32_t *words, size_t words_len, uint32_t set,
    uint32_t x, uint32_t y, uint32_t sign,
    uint16_t *scratch, size_t scratch_len, uint16_t *reason, size_t reason_len,
    uint32_t *lines, size_t lines_len);

/* The check of a derivation from anybody: is list made of whole lines, each of which is a chosen link or follows by its rule
 * from lines above it, and does the last one say the statement? Lines may repeat and go unused. Nothing is written.
 *   0            first = 1 if so, and then the net supports the statement; 0 if not, as for a list that is empty or ends
 *                within a line, and for a line that names itself, one below it or a word that is not chosen, or that has a
 *                number where its ground uses none
 *   1, 2, 15, 3  as in strumelka_check_net
 *   4            x is no node, y is no kind, or sign is neither of the two */
struct strumelka_answer strumelka_derivation_check(
    uint32_t o, uint32_t k, const uint32_t *words, size_t words_len, uint32_t set,
    uint32_t x, uint32_t y, uint32_t sign,
    const uint32_t *list, size_t list_len);

/* The proof of a statement, node x is of kind y (sign STRUMELKA_IS) or is not (STRUMELKA_IS_NOT), by the rules of a sequent
 * calculus, built from the shortest reason. The list begins with the number of branches and, for each of them, the place of
 * its first step and the number of its steps: branch 0 is the whole proof, branch i the left premise of the i-th left rule.
 * The steps follow, three places each: STRUMELKA_RULE_.., the object, and the link or the statement as a plain word. Each
 * stands before its left premise, and that before the main one. The fresh object has the number o + k. Where that is 1,024,
 * words about it are 2,097,152 and more: their tail is word / 2,048, which STRUMELKA_TAIL does not give, and they have no
 * origin.
 *   0            first = the places written to the front of list; places after them unchanged
 *   1, 2, 15, 3  as in strumelka_check_net
 *   4            x is no node, y is no kind, or sign is neither of the two; scratch and list unchanged
 *   5            scratch_len is below STRUMELKA_SCRATCH(o, k); scratch and list unchanged
 *   7            the net does not support the statement; list unchanged
 *   11           the proof has more than STRUMELKA_SEQUENT_LIMIT sequents one above another; list unchanged
 *   8            list_len is too small; first = the places needed; list unchanged
 * With 0, 7, 11 and 8 the scratch is as strumelka_reason leaves it. */
struct strumelka_answer strumelka_proof(
    uint32_t o, uint32_t k, const uint32_t *words, size_t words_len, uint32_t set,
    uint32_t x, uint32_t y, uint32_t sign,
    uint16_t *scratch, size_t scratch_len, uint32_t *list, size_t list_len);

/* The check of a proof from anybody: does list prove the statement from the net's links, with nothing after it? Links may be
 * used any number of times. Nothing is written. The call goes as deep as the proof, so that its stack grows with it, up to
 * STRUMELKA_SEQUENT_LIMIT sequents.
 *   0            it does, and the net supports the statement
 *   1, 2, 15, 3  as in strumelka_check_net
 *   4            x is no node, y is no kind, or sign is neither of the two
 *   12           it does not: it is malformed, a step is not by its rule, it proves another statement or has more than
 *                STRUMELKA_SEQUENT_LIMIT sequents one above another; first = the first step at fault, counted from 0 in the
 *                order of the list, or STRUMELKA_NO_STEP where no one step is, as in a list that is cut short or has wrong
 *                contents */
struct strumelka_answer strumelka_proof_check(
    uint32_t o, uint32_t k, const uint32_t *words, size_t words_len, uint32_t set,
    uint32_t x, uint32_t y, uint32_t sign,
    const uint32_t *list, size_t list_len);

/* The marker unit: runs the commands of program over the chosen links, at most budget of them. The first o + k bytes of marks
 * are the markers before and after, all eight bits of them: what the program does not clear counts. A link command tests all
 * links by the markers at its beginning. A loop is run again after every pass of it in which a set or link command put a marker
 * where it was not; its beginning and its end count as no commands. A loop that clears what it sets may go on for ever, and
 * is stopped by the budget.
 *   0            the program ended; first = the commands run
 *   1, 2, 15, 3  as in strumelka_check_net
 *   5            marks_len is below STRUMELKA_MARKS(o, k); marks unchanged
 *   16           a command is at fault: it is none of STRUMELKA_COMMAND_.., it clears no marker or more than eight, its marker
 *                is above 7 or its node is no node, or it begins a loop inside a loop, begins one that has no end after it or
 *                ends one where none is begun; first = the first such place in program, or 4294967295 if it is larger;
 *                marks unchanged
 *   6            the program needs more commands than budget; first = budget; marks after exactly that many commands */
struct strumelka_answer strumelka_unit(
    uint32_t o, uint32_t k, const uint32_t *words, size_t words_len, uint32_t set,
    const uint32_t *program, size_t program_len, uint32_t budget, uint8_t *marks, size_t marks_len);

#ifdef __cplusplus
}
#endif

#endif
