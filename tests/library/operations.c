/* The operations that a case for `readings` can ask. Cases are drawn, read, run on the archive and printed by this table. The calls go
 * through the header, so that its types and the order of parameters and of the answer's fields are tried with them. */
#include "strumelka.h"

/* The parts of a word are those that it is put together from, and a set has the origins that it is put together from. */
#define ANY_WORD (STRUMELKA_WORD(1023, 514, STRUMELKA_IS_NOT) + STRUMELKA_ORIGIN(3))
_Static_assert(ANY_WORD == 8387589u && STRUMELKA_PLAIN(ANY_WORD) == 2096133u, "the word");
_Static_assert(STRUMELKA_ORIGIN_OF(ANY_WORD) == 3u && STRUMELKA_TAIL(ANY_WORD) == 1023u, "its origin and tail");
_Static_assert(STRUMELKA_HEAD(ANY_WORD) == 514u && STRUMELKA_SIGN(ANY_WORD) == STRUMELKA_IS_NOT, "its head and sign");
_Static_assert((STRUMELKA_FROM(0) | STRUMELKA_FROM(1) | STRUMELKA_FROM(2) | STRUMELKA_FROM(3)) == STRUMELKA_ALL_ORIGINS, "the sets");

/* The longest derivations, and the places of a line. */
_Static_assert(STRUMELKA_LINES_LIST(7, 0) == 0u && STRUMELKA_LINES_LIST(0, 1) == 4u && STRUMELKA_LINES_LIST(1, 1) == 12u, "lines of one kind");
_Static_assert(STRUMELKA_LINES_LIST(0, 2) == 24u && STRUMELKA_LINES_LIST(9, 2) == 28u, "lines of two kinds");
_Static_assert(STRUMELKA_LINES_LIST(0, 1024) == 16376u && STRUMELKA_LINES_LIST(1, 1023) == 16364u, "lines of all nodes");
_Static_assert(STRUMELKA_LINE_STATEMENT(1) == STRUMELKA_LINE_PLACES && STRUMELKA_LINE_GROUND(1) == 5u, "the statement and the ground");
_Static_assert(STRUMELKA_LINE_FIRST(1) == 6u && STRUMELKA_LINE_SECOND(1) == 7u, "the numbers");
_Static_assert(STRUMELKA_GROUND_LINK == 0u && STRUMELKA_GROUND_RULE_1 == 1u && STRUMELKA_GROUND_RULE_5 == 5u, "the grounds");

/* The longest proofs: a kind that is not itself, up and down as many kinds as fit the depth, and an object's with as many links as sequents. */
_Static_assert(STRUMELKA_PROOF_LIST(0, 1) == 17u && STRUMELKA_PROOF_LIST(9, 127) == 2033u, "proofs of few kinds");
_Static_assert(STRUMELKA_PROOF_LIST(0, 128) == 2033u && STRUMELKA_PROOF_LIST(1, 128) == 2038u, "proofs of many kinds");

/* The commands of the merged scan. */
_Static_assert(STRUMELKA_COMMAND_CLEAR(STRUMELKA_ALL_MARKERS) == 255u && STRUMELKA_COMMAND_SET(STRUMELKA_MARKER_U, 5) == 16908293u, "before the loop");
_Static_assert(STRUMELKA_COMMAND_LOOP == 50331648u && STRUMELKA_COMMAND_END == 67108864u, "the loop");
_Static_assert(STRUMELKA_COMMAND_LINK(STRUMELKA_MARKER_T, STRUMELKA_MARKER_T, STRUMELKA_HEAD_TO_TAIL, STRUMELKA_IS) == 33554434u, "its first command");
_Static_assert(STRUMELKA_COMMAND_LINK(STRUMELKA_MARKER_U, STRUMELKA_MARKER_F, STRUMELKA_TAIL_TO_HEAD, STRUMELKA_IS_NOT) == 33685761u, "its fourth");
_Static_assert((1u << STRUMELKA_MARKER_T) == STRUMELKA_MARK_T && (1u << STRUMELKA_MARKER_U) == STRUMELKA_MARK_U, "markers and marks");

/* A field of a case as it is handed over: a number, or a list and its length. */
struct field {
    uint32_t number;
    void *list;
    size_t length;
};

/* Once, from every node, or from every node for every word. */
enum effort { ONCE, EVERY_NODE, EVERY_WORD };

struct operation {
    const char *name;
    /* The kinds of its fields, in the order of the case and of the C parameters: fields.rs says what each is. */
    const char *fields;
    /* What a long run has to meet: a number of the table, N=V for number N with the first value V, or N=V,W with both values; V may be *, any value. */
    const char *outcomes;
    /* How often one of the engines goes through the net for it. The more often, the smaller the nets are that it is drawn for. */
    enum effort effort;
    /* Calls it and takes its number and values; null where the archive does not have it. */
    void (*call)(const struct field *fields, uint32_t answer[3]);
};

#define NUMBER(i) fields[i].number
#define BYTES(i) (uint8_t *)fields[i].list, fields[i].length
#define HALVES(i) (uint16_t *)fields[i].list, fields[i].length
#define WORDS(i) (uint32_t *)fields[i].list, fields[i].length
#define ROWS(i) (uint64_t *)fields[i].list, fields[i].length
#define NET NUMBER(0), NUMBER(1), WORDS(2), NUMBER(3)

/* Name, fields, outcomes, effort; then the arguments of the C function. */
#define EXPORTED(_)                                                                             \
    _(check_word, "o k word", "0 1 3=0,1 3=0,2 3=0,3", ONCE,                                    \
      NUMBER(0), NUMBER(1), NUMBER(2))                                                          \
    _(check_net, "o k words set", "0 1 2 15 3", ONCE,                                           \
      NET)                                                                                      \
    _(scan, "o k words set node budget marks", "0 1 2 15 3 4 5 6", ONCE,                        \
      NET, NUMBER(4), NUMBER(5), BYTES(6))                                                      \
    _(question, "o k words set node kind marks", "0=0 0=1 0=2 0=3 1 2 15 3 4 5", EVERY_NODE,    \
      NET, NUMBER(4), NUMBER(5), BYTES(6))                                                      \
    _(questions, "o k words set pairs answers marks", "0 1 2 15 3 10 5", EVERY_NODE,            \
      NET, HALVES(4), BYTES(5), BYTES(6))                                                       \
    _(completion, "o k words set marks list", "0 1 2 15 3 5 8", EVERY_NODE,                     \
      NET, BYTES(4), WORDS(5))                                                                  \
    _(completion_by_rows, "o k words set yes no list", "0 1 2 15 3 5 8", EVERY_NODE,            \
      NET, ROWS(4), ROWS(5), WORDS(6))                                                          \
    _(answer_in_rows, "o k filled_yes filled_no node kind", "0=0 0=1 0=2 0=3 1 4 5", ONCE,      \
      NUMBER(0), NUMBER(1), ROWS(2), ROWS(3), NUMBER(4), NUMBER(5))                             \
    _(clash, "o k words set marks", "0 1 2 15 3 5 7", EVERY_NODE,                               \
      NET, BYTES(4))                                                                            \
    _(compact, "o k links marks", "0 1 2 3 5", EVERY_WORD,                                      \
      NUMBER(0), NUMBER(1), WORDS(2), BYTES(3))                                                 \
    _(mend, "o k plain kept dropped marks", "0 1 2 3 5 8", EVERY_WORD,                          \
      NUMBER(0), NUMBER(1), WORDS(2), WORDS(3), WORDS(4), BYTES(5))                             \
    _(valuation, "o k words set table marks", "0 1 2 15 3 5 13", EVERY_NODE,                    \
      NET, BYTES(4), BYTES(5))                                                                  \
    _(satisfies, "o k model node kind sign", "0=0 0=1 1 4 13", ONCE,                            \
      NUMBER(0), NUMBER(1), BYTES(2), NUMBER(3), NUMBER(4), NUMBER(5))                          \
    _(reason, "o k words set node kind sign scratch reason", "0 1 2 15 3 4 5 7 8", ONCE,        \
      NET, NUMBER(4), NUMBER(5), NUMBER(6), HALVES(7), HALVES(8))                               \
    _(reason_check, "o k words set node kind sign path", "0=0 0=1 1 2 15 3 4", ONCE,            \
      NET, NUMBER(4), NUMBER(5), NUMBER(6), HALVES(7))                                          \
    _(explain, "o k words set node kind sign scratch reason lines",                             \
      "0 1 2 15 3 4 5 7 8=*,0 8=*,1", ONCE,                                                     \
      NET, NUMBER(4), NUMBER(5), NUMBER(6), HALVES(7), HALVES(8), WORDS(9))                     \
    _(derivation_check, "o k words set node kind sign derivation",                              \
      "0=0 0=1 1 2 15 3 4", ONCE,                                                               \
      NET, NUMBER(4), NUMBER(5), NUMBER(6), WORDS(7))                                           \
    _(proof, "o k words set node kind sign scratch list", "0 1 2 15 3 4 5 7 11 8", ONCE,        \
      NET, NUMBER(4), NUMBER(5), NUMBER(6), HALVES(7), WORDS(8))                                \
    _(proof_check, "o k words set node kind sign proof",                                        \
      "0 1 2 15 3 4 12=0 12=4294967295 12", ONCE,                                               \
      NET, NUMBER(4), NUMBER(5), NUMBER(6), WORDS(7))                                           \
    _(unit, "o k words set program commands marks", "0=0 0 1 2 15 3 5 16=0 16 6=0 6", ONCE,     \
      NET, WORDS(4), NUMBER(5), BYTES(6))

static void take(struct strumelka_answer given, uint32_t answer[3])
{
    answer[0] = given.number;
    answer[1] = given.first;
    answer[2] = given.second;
}

#define CALL(name, kinds, outcomes, effort, ...)                             \
    static void call_##name(const struct field *fields, uint32_t answer[3])  \
    {                                                                        \
        take(strumelka_##name(__VA_ARGS__), answer);                         \
    }
EXPORTED(CALL)

#define LINE(name, kinds, outcomes, effort, ...) {#name, kinds, outcomes, effort, call_##name},

const struct operation operations[] = {
    EXPORTED(LINE)
    {"file", "file", "0 9=0 9=1 9=2 9=3 9=4", ONCE, NULL},
    {"ask", "file byte", "0", EVERY_NODE, NULL},
};
const size_t operations_len = sizeof operations / sizeof operations[0];
