/* How much stack each function of the archive takes. It is called on a stack of its own, painted beforehand, and the lowest byte that
 * lost its paint tells how far down the call wrote. Every operation of the table that the archive has is called, on one net at the limit
 * of nodes, in a call that is done. The figure is what the call took below its caller: arguments, return address and all frames.
 *
 * A line for each function; the status is 1 where one takes more than its limit. */
#include <stdio.h>
#include <string.h>
#include <ucontext.h>

#include "operations.c"

#define COUNT(list) (sizeof(list) / sizeof(list)[0])

enum { STACK_SIZE = 1048576, STACK_LIMIT = 1024, DEEP_LIMIT = 98304, MOST_FIELDS = 16 };

/* 0 is of kind 24, that of 25, that not of 26; the last kind is not itself, so that a clash is found at the last node. */
#define OBJECTS 24u
#define KINDS 1000u
static uint32_t words[] = {
    STRUMELKA_WORD(0, 24, STRUMELKA_IS),
    STRUMELKA_WORD(24, 25, STRUMELKA_IS),
    STRUMELKA_WORD(25, 26, STRUMELKA_IS_NOT),
    STRUMELKA_WORD(1023, 1023, STRUMELKA_IS_NOT),
};
static uint16_t path[] = {3, 1, 0, 24, 25, 26};

/* Two about one node, a bad one, and one about another node. */
static uint16_t pairs[] = {0, 24, 0, 26, 24, 0, 1023, 1023};
static uint8_t answers[COUNT(pairs) / 2];

/* A list to be written over, filled anew for each call: the words above, one of them twice, and one that follows from others. */
static const uint32_t filled[] = {
    STRUMELKA_WORD(1023, 1023, STRUMELKA_IS_NOT), STRUMELKA_WORD(25, 26, STRUMELKA_IS_NOT),
    STRUMELKA_WORD(24, 25, STRUMELKA_IS),         STRUMELKA_WORD(24, 25, STRUMELKA_IS),
    STRUMELKA_WORD(0, 25, STRUMELKA_IS),          STRUMELKA_WORD(0, 24, STRUMELKA_IS),
};
static uint32_t links[COUNT(filled)];

/* Room for the words above that are kept, and for those that are dropped, as the last one is. */
static uint32_t kept[COUNT(words)];
static uint32_t dropped[STRUMELKA_DROPPED_LIST(COUNT(words))];

/* The table of the net's valuation, which the test of a statement then reads. */
static uint8_t table[STRUMELKA_TABLE(OBJECTS, KINDS)];

static uint8_t marks[OBJECTS + KINDS];
static uint32_t list[4096];
static uint16_t scratch[2 * (OBJECTS + KINDS)];
static uint64_t yes[STRUMELKA_ROWS(OBJECTS, KINDS)];
static uint64_t no[STRUMELKA_ROWS(OBJECTS, KINDS)];
static uint16_t reason[16];
static uint32_t lines[STRUMELKA_LINES_LIST(OBJECTS, KINDS)];

/* The derivation of 0 is not of 26. */
static uint32_t derivation[] = {
    STRUMELKA_WORD(0, 24, STRUMELKA_IS),      STRUMELKA_GROUND_LINK,   0, 0,
    STRUMELKA_WORD(24, 25, STRUMELKA_IS),     STRUMELKA_GROUND_LINK,   1, 0,
    STRUMELKA_WORD(0, 25, STRUMELKA_IS),      STRUMELKA_GROUND_RULE_2, 0, 1,
    STRUMELKA_WORD(25, 26, STRUMELKA_IS_NOT), STRUMELKA_GROUND_LINK,   2, 0,
    STRUMELKA_WORD(0, 26, STRUMELKA_IS_NOT),  STRUMELKA_GROUND_RULE_4, 2, 3,
};

/* A proof that 0 is not of 26, as deep as is allowed, and deep in left premises: it goes by 25, shown by way of 24, and that 0 is of 24 is shown by way of
 * itself, over and over. */
enum { DEPTH = STRUMELKA_SEQUENT_LIMIT, BRANCHES = DEPTH, STEPS = 2 * DEPTH - 1, FIRST_STEP = 1 + 2 * BRANCHES };
static uint32_t proof[FIRST_STEP + 3 * STEPS];

/* The merged scan from 0. */
static uint32_t program[] = {
    STRUMELKA_COMMAND_CLEAR(STRUMELKA_ALL_MARKERS),
    STRUMELKA_COMMAND_SET(STRUMELKA_MARKER_T, 0),
    STRUMELKA_COMMAND_SET(STRUMELKA_MARKER_U, 0),
    STRUMELKA_COMMAND_LOOP,
    STRUMELKA_COMMAND_LINK(STRUMELKA_MARKER_T, STRUMELKA_MARKER_T, STRUMELKA_HEAD_TO_TAIL, STRUMELKA_IS),
    STRUMELKA_COMMAND_LINK(STRUMELKA_MARKER_U, STRUMELKA_MARKER_U, STRUMELKA_TAIL_TO_HEAD, STRUMELKA_IS),
    STRUMELKA_COMMAND_LINK(STRUMELKA_MARKER_F, STRUMELKA_MARKER_F, STRUMELKA_HEAD_TO_TAIL, STRUMELKA_IS),
    STRUMELKA_COMMAND_LINK(STRUMELKA_MARKER_U, STRUMELKA_MARKER_F, STRUMELKA_TAIL_TO_HEAD, STRUMELKA_IS_NOT),
    STRUMELKA_COMMAND_LINK(STRUMELKA_MARKER_U, STRUMELKA_MARKER_F, STRUMELKA_HEAD_TO_TAIL, STRUMELKA_IS_NOT),
    STRUMELKA_COMMAND_END,
};

/* What is handed over for each kind of field. */
static const struct {
    const char *name;
    struct field field;
} values[] = {
    {"o", {OBJECTS, NULL, 0}},
    {"k", {KINDS, NULL, 0}},
    {"words", {0, words, COUNT(words)}},
    {"set", {STRUMELKA_ALL_ORIGINS, NULL, 0}},
    {"word", {STRUMELKA_WORD(0, 24, STRUMELKA_IS), NULL, 0}},
    {"node", {0, NULL, 0}},
    {"kind", {26, NULL, 0}},
    {"sign", {STRUMELKA_IS_NOT, NULL, 0}},
    {"budget", {UINT32_MAX, NULL, 0}},
    {"marks", {0, marks, COUNT(marks)}},
    {"list", {0, list, COUNT(list)}},
    {"yes", {0, yes, COUNT(yes)}},
    {"no", {0, no, COUNT(no)}},
    {"filled_yes", {0, yes, COUNT(yes)}},
    {"filled_no", {0, no, COUNT(no)}},
    {"scratch", {0, scratch, COUNT(scratch)}},
    {"reason", {0, reason, COUNT(reason)}},
    {"path", {0, path, COUNT(path)}},
    {"lines", {0, lines, COUNT(lines)}},
    {"derivation", {0, derivation, COUNT(derivation)}},
    {"proof", {0, proof, COUNT(proof)}},
    {"program", {0, program, COUNT(program)}},
    {"commands", {UINT32_MAX, NULL, 0}},
    {"pairs", {0, pairs, COUNT(pairs)}},
    {"answers", {0, answers, COUNT(answers)}},
    {"links", {0, links, COUNT(links)}},
    {"plain", {0, words, COUNT(words)}},
    {"kept", {0, kept, COUNT(kept)}},
    {"dropped", {0, dropped, COUNT(dropped)}},
    {"table", {0, table, COUNT(table)}},
    {"model", {0, table, COUNT(table)}},
};

/* The call, and what it answers. */
static void (*call)(const struct field *fields, uint32_t answer[3]);
static struct field fields[MOST_FIELDS];
static uint32_t answer[3];

static _Alignas(64) unsigned char stack[STACK_SIZE];
static unsigned char paint;
static size_t unwritten;
static ucontext_t outside, inside;

static void put_step(int at, uint32_t rule, uint32_t link)
{
    uint32_t *step = proof + FIRST_STEP + 3 * at;
    step[0] = rule;
    step[1] = 0;
    step[2] = link;
}

/* The left rules, then the axiom of the last one's left premise, then those of the main premises, the last one's first. */
static void fill_proof(void)
{
    proof[0] = BRANCHES;
    for (int i = 0; i < BRANCHES; i++) {
        proof[1 + 2 * i] = (uint32_t)(FIRST_STEP + 3 * i);
        proof[2 + 2 * i] = (uint32_t)(STEPS - 2 * i);
    }
    put_step(0, STRUMELKA_RULE_LEFT_IS_NOT, STRUMELKA_WORD(25, 26, STRUMELKA_IS_NOT));
    for (int i = 1; i < DEPTH - 1; i++)
        put_step(i, STRUMELKA_RULE_LEFT_IS, STRUMELKA_WORD(24, 25, STRUMELKA_IS));
    for (int i = DEPTH - 1; i < STEPS - 2; i++)
        put_step(i, STRUMELKA_RULE_AXIOM_IS, STRUMELKA_WORD(0, 24, STRUMELKA_IS));
    put_step(STEPS - 2, STRUMELKA_RULE_AXIOM_IS, STRUMELKA_WORD(0, 25, STRUMELKA_IS));
    put_step(STEPS - 1, STRUMELKA_RULE_AXIOM_IS_NOT, STRUMELKA_WORD(0, 26, STRUMELKA_IS_NOT));
}

/* The fields of an operation; 0 where this file has no value for one of them. */
static int fill_fields(const char *kinds)
{
    for (size_t at = 0; at < MOST_FIELDS; at++) {
        size_t length = strcspn(kinds, " "), i = 0;
        while (i < COUNT(values) && (strlen(values[i].name) != length || strncmp(values[i].name, kinds, length) != 0))
            i++;
        if (i == COUNT(values))
            return 0;
        fields[at] = values[i].field;
        if (kinds[length] == 0)
            return 1;
        kinds += length + 1;
    }
    return 0;
}

/* Makes the call and looks at the paint before it comes back, since that takes stack too. */
static void enter(void)
{
    const volatile unsigned char *byte = stack;
    call(fields, answer);
    while (*byte == paint)
        byte++;
    unwritten = (size_t)(byte - stack);
}

static size_t written_on(unsigned char color)
{
    paint = color;
    memset(stack, paint, sizeof stack);
    memcpy(links, filled, sizeof links);
    getcontext(&inside);
    inside.uc_stack.ss_sp = stack;
    inside.uc_stack.ss_size = sizeof stack;
    inside.uc_link = &outside;
    makecontext(&inside, enter, 0);
    swapcontext(&outside, &inside);
    return sizeof stack - unwritten;
}

/* Two colors, since a byte may be written in one of them. The first call of all binds the memory functions. */
static size_t written(void)
{
    written_on(0);
    size_t first = written_on(0xa5), second = written_on(0x5a);
    return first > second ? first : second;
}

/* What a call may take. A reason has no limit but the stack; the check of a proof goes as deep as the proof. */
static size_t limit_of(const char *name)
{
    if (strcmp(name, "reason") == 0)
        return STACK_SIZE;
    return strcmp(name, "proof_check") == 0 ? DEEP_LIMIT : STACK_LIMIT;
}

static void nothing(const struct field *ignored, uint32_t unchanged[3])
{
    (void)ignored;
    (void)unchanged;
}

int main(void)
{
    int status = 0;
    fill_proof();
    call = nothing;
    size_t before = written();
    for (size_t i = 0; i < operations_len; i++) {
        const struct operation *operation = &operations[i];
        if (operation->call == NULL)
            continue;
        if (!fill_fields(operation->fields)) {
            printf("%s: a field has no value here\n", operation->name);
            return 1;
        }
        call = operation->call;
        size_t bytes = written() - before;
        int over = bytes > limit_of(operation->name);
        printf("%-18s %5zu bytes%s\n", operation->name, bytes, over ? ", over the limit" : "");
        if (answer[0] != 0) {
            printf("%s: refused with %u\n", operation->name, (unsigned)answer[0]);
            return 1;
        }
        status |= over;
    }
    printf("limit %d bytes, of a proof check %d, of a reason none\n", STACK_LIMIT, DEEP_LIMIT);
    return status;
}
