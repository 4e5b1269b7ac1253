/* Instance A of document 01 through the library: reduces a network, tests a pair on the reduced network and restores it.
 * Exits with 1 where any word is not the one that the document prints. */
#include "patskvime.h"

#include <stdio.h>
#include <string.h>

#define LENGTH(words) (sizeof(words) / sizeof(words)[0])

static const int32_t network[] = {
    3, 3,
    0, 4, -5, 2, 1, 2, 1, 0, 3, 1, -1, 1, 2, 2, 0, 1, 1, -1, 3, 2, 7, 0, 1, 1, -1,
    1, 1, 1, 1, 1, 1, 1, 1, 1, 1, 1, 1, 1, 1, 1, 0, 1, 1, 1, 1, 1, 1, 0, 1, 2,
};
static const int32_t pair[] = {2, 2, 2, 0, 3, 1, 1, 1, 1, 1};

/* What document 01 prints. */
static const int32_t reduced[] = {
    2, 2,
    14, 4, -4, 1, 2, 1, 0, 3, 1, -1, 1, 2, 2, 0, 1, 1, -1,
    1, 1, 1, 1, 1, 1, 1, 1, 1, 1, 1, 1, 1, 1, 0, 1, 1,
};
static const int32_t steps[] = {1, 3, 3};
static const int32_t restored[] = {3, 3, 2, 0, 7, 3, 1, 2, 1, 1, 1, 1, 1, 1};
static const int32_t reduced_value[] = {19, 1};
static const int32_t both_values[] = {19, 1, 19, 1};

static int32_t out[PATSKVIME_NETWORK];
static int32_t stack[PATSKVIME_STACK];
static int32_t value[PATSKVIME_VALUE];
static int32_t values[PATSKVIME_VALUES];
static int32_t full_pair[PATSKVIME_PAIR];
static int32_t scratch[PATSKVIME_SCRATCH];

static int differ = 0;

static void compare_code(const char *name, size_t code)
{
    printf("%s: %zu\n", name, code);
    differ += code != 0;
}

/* Shows the record in lent words; the words must be those of the document, with zeros behind them. */
static void compare(const char *name, const int32_t *words, size_t length, const int32_t *expected, size_t count)
{
    printf("  %s:", name);
    for (size_t i = 0; i < count; i++)
        printf(" %d", words[i]);
    printf("\n");
    for (size_t i = 0; i < length; i++)
        differ += words[i] != (i < count ? expected[i] : 0);
}

#define COMPARE(name, words, expected) compare(name, words, LENGTH(words), expected, LENGTH(expected))

int main(void)
{
    memset(scratch, 7, sizeof scratch);
    compare_code("reduce", patskvime_reduce(network, LENGTH(network), out, LENGTH(out), stack, LENGTH(stack),
                                            scratch, LENGTH(scratch)));
    COMPARE("network", out, reduced);
    COMPARE("stack", stack, steps);
    compare("scratch", scratch, LENGTH(scratch), NULL, 0);

    compare_code("test", patskvime_test(out, LENGTH(reduced), pair, LENGTH(pair), value, LENGTH(value)));
    COMPARE("value", value, reduced_value);

    size_t stack_length = 1 + 2 * (size_t)stack[0];
    compare_code("restore", patskvime_restore(network, LENGTH(network), stack, stack_length, pair, LENGTH(pair),
                                              full_pair, LENGTH(full_pair), values, LENGTH(values),
                                              scratch, LENGTH(scratch)));
    COMPARE("pair", full_pair, restored);
    COMPARE("values", values, both_values);
    compare("scratch", scratch, LENGTH(scratch), NULL, 0);

    printf(differ ? "differs from document 01\n" : "as document 01 prints it\n");
    return differ != 0;
}
