/* Asks a screenful about net M, to which a user has added a link, without the user's links: prints a line for each pair, and then
 * the reason why 0 is not 5 and its derivation, line by line. The last lines are what the user's link makes of the net, its
 * question printed as `ask` does. */
#include <stdio.h>

#include "strumelka.h"

enum { OBJECTS = 2, KINDS = 4 };

/* Who enters links, and the set that leaves the user out. */
enum { FACTORY = 0, LAB = 1, USER = 2 };
static const uint32_t without_user = STRUMELKA_ALL_ORIGINS & ~STRUMELKA_FROM(USER);

/* Traces 0 and 1; truncated averages 2, unbiased 3, mean-valid 4, rounded averages 5. */
static const uint32_t net[] = {
    STRUMELKA_WORD(0, 2, STRUMELKA_IS) + STRUMELKA_ORIGIN(LAB),
    STRUMELKA_WORD(1, 5, STRUMELKA_IS) + STRUMELKA_ORIGIN(LAB),
    STRUMELKA_WORD(2, 3, STRUMELKA_IS_NOT) + STRUMELKA_ORIGIN(FACTORY),
    STRUMELKA_WORD(4, 3, STRUMELKA_IS) + STRUMELKA_ORIGIN(FACTORY),
    STRUMELKA_WORD(5, 4, STRUMELKA_IS) + STRUMELKA_ORIGIN(FACTORY),
    STRUMELKA_WORD(0, 4, STRUMELKA_IS) + STRUMELKA_ORIGIN(USER),
};
static const size_t net_len = sizeof net / sizeof net[0];

/* The pairs of the screenful, x and y of each; the last one is bad, since 0 is no kind. */
static const uint16_t pairs[] = {0, 4, 1, 4, 2, 5, 3, 4, 3, 0};
enum { PAIRS = sizeof pairs / sizeof pairs[0] / 2 };

static const char *const answers[] = {"none", "yes", "no", "both"};

/* Asks the whole screenful in one call and prints a line for each pair; 0 if it was done. */
static int ask_screenful(uint32_t set)
{
    uint8_t given[PAIRS];
    uint8_t marks[STRUMELKA_MARKS(OBJECTS, KINDS)];
    struct strumelka_answer answer =
        strumelka_questions(OBJECTS, KINDS, net, net_len, set, pairs, 2 * PAIRS, given, PAIRS,
                            marks, sizeof marks / sizeof marks[0]);
    if (answer.number != STRUMELKA_NUMBER_DONE) {
        printf("screenful refused %u\n", (unsigned)answer.number);
        return 1;
    }
    for (size_t i = 0; i < PAIRS; i++)
        printf("%u %u %s\n", (unsigned)pairs[2 * i], (unsigned)pairs[2 * i + 1],
               given[i] == STRUMELKA_ANSWER_BAD_PAIR ? "bad pair" : answers[given[i]]);
    return 0;
}

static void ask(uint32_t set, uint32_t x, uint32_t y)
{
    uint8_t marks[STRUMELKA_MARKS(OBJECTS, KINDS)];
    struct strumelka_answer answer =
        strumelka_question(OBJECTS, KINDS, net, net_len, set, x, y, marks, sizeof marks / sizeof marks[0]);
    if (answer.number == STRUMELKA_NUMBER_DONE)
        printf("%u %u %s %u\n", (unsigned)x, (unsigned)y, answers[answer.first], (unsigned)answer.second);
    else
        printf("%u %u refused %u\n", (unsigned)x, (unsigned)y, (unsigned)answer.number);
}

/* Prints line i of a derivation, its number and those that it names counted from 1. */
static void print_line(const uint32_t *lines, uint32_t i)
{
    uint32_t said = lines[STRUMELKA_LINE_STATEMENT(i)], ground = lines[STRUMELKA_LINE_GROUND(i)];
    unsigned first = (unsigned)lines[STRUMELKA_LINE_FIRST(i)], second = (unsigned)lines[STRUMELKA_LINE_SECOND(i)];
    printf("  %u  %u %s %u  ", (unsigned)i + 1, (unsigned)STRUMELKA_TAIL(said),
           STRUMELKA_SIGN(said) == STRUMELKA_IS ? "is" : "is-not", (unsigned)STRUMELKA_HEAD(said));
    if (ground == STRUMELKA_GROUND_LINK)
        printf("link %u\n", first);
    else if (ground == STRUMELKA_GROUND_RULE_1)
        printf("3.1\n");
    else if (ground == STRUMELKA_GROUND_RULE_3)
        printf("3.3 from %u\n", first + 1);
    else
        printf("3.%u from %u %u\n", (unsigned)ground, first + 1, second + 1);
}

/* Prints the reason for "x is not y" and its derivation; 0 if there is one and the check takes it. */
static int explain_against(uint32_t set, uint32_t x, uint32_t y)
{
    uint16_t scratch[STRUMELKA_SCRATCH(OBJECTS, KINDS)];
    uint16_t reason[STRUMELKA_REASON_LIST(OBJECTS, KINDS)];
    uint32_t lines[STRUMELKA_LINES_LIST(OBJECTS, KINDS)];
    struct strumelka_answer answer =
        strumelka_explain(OBJECTS, KINDS, net, net_len, set, x, y, STRUMELKA_IS_NOT,
                          scratch, sizeof scratch / sizeof scratch[0], reason, sizeof reason / sizeof reason[0],
                          lines, sizeof lines / sizeof lines[0]);
    if (answer.number != STRUMELKA_NUMBER_DONE) {
        printf("reason %u -/> %u refused %u\n", (unsigned)x, (unsigned)y, (unsigned)answer.number);
        return 1;
    }
    printf("reason %u -/> %u:", (unsigned)x, (unsigned)y);
    for (uint32_t i = 0; i < answer.second; i++)
        printf(" %u", (unsigned)reason[i]);
    printf("\n");
    for (uint32_t i = 0; i < answer.first / STRUMELKA_LINE_PLACES; i++)
        print_line(lines, i);
    return strumelka_derivation_check(OBJECTS, KINDS, net, net_len, set, x, y, STRUMELKA_IS_NOT, lines, answer.first).first != 1;
}

/* Prints where the net clashes, or that it does not. */
static void test_for_clash(uint32_t set)
{
    uint8_t marks[STRUMELKA_MARKS(OBJECTS, KINDS)];
    struct strumelka_answer answer =
        strumelka_clash(OBJECTS, KINDS, net, net_len, set, marks, sizeof marks / sizeof marks[0]);
    if (answer.number == STRUMELKA_NUMBER_DONE)
        printf("clash at %u %u\n", (unsigned)answer.first, (unsigned)answer.second);
    else
        printf("no clash\n");
}

/* Whether words with a wrong origin, tail and head are known by their causes, and a set with a fifth origin by its number. */
static int refuses_what_is_wrong(void)
{
    return strumelka_check_word(OBJECTS, KINDS, STRUMELKA_PLAIN(net[0]) + STRUMELKA_ORIGIN(4)).second == STRUMELKA_CAUSE_ORIGIN
        && strumelka_check_word(OBJECTS, KINDS, STRUMELKA_WORD(OBJECTS + KINDS, OBJECTS, STRUMELKA_IS)).second == STRUMELKA_CAUSE_TAIL
        && strumelka_check_word(OBJECTS, KINDS, STRUMELKA_WORD(0, 0, STRUMELKA_IS)).second == STRUMELKA_CAUSE_HEAD
        && strumelka_check_net(OBJECTS, KINDS, net, net_len, STRUMELKA_FROM(4)).number == STRUMELKA_NUMBER_BAD_SET;
}

int main(void)
{
    struct strumelka_answer answer = strumelka_check_net(OBJECTS, KINDS, net, net_len, without_user);
    if (answer.number != STRUMELKA_NUMBER_DONE) {
        printf("net %u %u %u\n", (unsigned)answer.number, (unsigned)answer.first, (unsigned)answer.second);
        return 1;
    }
    if (!refuses_what_is_wrong())
        return 1;
    if (ask_screenful(without_user) != 0)
        return 1;
    if (explain_against(without_user, 0, 5) != 0)
        return 1;
    test_for_clash(without_user);
    ask(STRUMELKA_ALL_ORIGINS, 0, 4);
    test_for_clash(STRUMELKA_ALL_ORIGINS);
    return 0;
}
