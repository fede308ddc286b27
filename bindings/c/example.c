/* Compiles two model texts and asks whether every document of the first is one of the second. */
#include <stdio.h>
#include <string.h>

#include "baranduk.h"

struct table {
    uint16_t symbols;
    uint16_t marks[BARANDUK_STATES];
    uint16_t rules[BARANDUK_RULE_NUMBERS];
    size_t states;
    size_t numbers;
};

static int compile(const char *text, struct table *t)
{
    struct baranduk_answer a = baranduk_compile((const uint8_t *)text, strlen(text), t->marks, BARANDUK_STATES,
                                                t->rules, BARANDUK_RULE_NUMBERS);
    if (a.number != 0) {
        printf("refused\t%u\t%u\t%zu\n", a.side, a.number, a.place);
        return 0;
    }
    t->symbols = (uint16_t)a.first;
    t->states = a.second;
    t->numbers = 4 * a.third;
    return 1;
}

static void include(const struct table *sender, const struct table *receiver)
{
    static uint16_t witness[2 * BARANDUK_STATES * (BARANDUK_STATES + 1)];
    struct baranduk_answer a =
        baranduk_include(sender->symbols, sender->marks, sender->states, sender->rules, sender->numbers,
                         receiver->symbols, receiver->marks, receiver->states, receiver->rules, receiver->numbers,
                         witness, sizeof witness / sizeof *witness);
    if (a.number != 0) {
        printf("refused\t%u\t%u\t%zu\n", a.side, a.number, a.place);
    } else if (a.first == 0) {
        printf("included\n");
    } else {
        printf("witness\t%zu\n", a.first);
        for (size_t i = 0; i < a.first; i++) {
            if (witness[2 * i + 1] == BARANDUK_LEAF)
                printf("A\t%u\n", witness[2 * i]);
            else
                printf("J\t%u\t%u\n", witness[2 * i], witness[2 * i + 1]);
        }
    }
}

int main(void)
{
    static struct table k, some;
    if (!compile("D\t3\t0\nM\t0\t1 *\nM\t1\t2 ?\nM\t2\te\n", &k))
        return 1;
    if (!compile("D\t3\t0\nM\t0\t1 +\nM\t1\t2 ?\nM\t2\te\n", &some))
        return 1;
    include(&some, &k);
    include(&k, &some);
    return 0;
}
