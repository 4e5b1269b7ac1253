/* Patskvime: reduces generalized networks, tests optima exactly and restores them. Link libpatskvime.a, which is for x86-64
 * Linux.
 *
 * A slice is a pointer to 32-bit words and how many words there are. Records are those of the README:
 *   network: n, m, 1 + n + 7m numerators (the constant, supplies, the arcs' figures), as many denominators
 *   stack:   s, s rule numbers (1 to 7), s places
 *   pair:    n, m, n + m numerators (prices, then flows), as many denominators
 * The length of a record given is exactly its own. A slice lent for an answer or as scratch may be longer than what is
 * asked for, and may hold anything.
 *
 * A caller must keep to this: pointers are aligned and never null, not even where the length is 0; all words given are
 * initialized; lent slices overlap neither each other nor what is given; nothing else uses them during a call.
 * There is no other condition: a call ends for any words and any lengths. It allocates nothing, keeps nothing and needs
 * less than 1 MB of stack (examples/run calls each function with a stack of that size).
 *
 * Every word of a lent slice is written. After a refusal all are zero; after success those behind a record are.
 * Scratch is always zero afterwards. */
#ifndef PATSKVIME_H
#define PATSKVIME_H

#include <stddef.h>
#include <stdint.h>

#ifdef __cplusplus
extern "C" {
#endif

/* Words to lend. */
#define PATSKVIME_NETWORK 1412
#define PATSKVIME_STACK 257
#define PATSKVIME_PAIR 258
#define PATSKVIME_VALUE 2
#define PATSKVIME_VALUES 4
#define PATSKVIME_SCRATCH 10240

/* A result is 0 for success, 1 to 13 for the question that refused, and 256 * rule + place for no flow. */
#define PATSKVIME_IS_NO_FLOW(code) ((code) >= 256)
#define PATSKVIME_RULE(code) ((code) / 256)
#define PATSKVIME_PLACE(code) ((code) % 256)

/* Reduces a network until no rule applies.
 * 0: out has the reduced network, stack the steps. No flow: the network given has no feasible flow; out is zero, stack
 * has the steps before. Refusals: 1 to 5.
 * Lend out PATSKVIME_NETWORK words, stack PATSKVIME_STACK, scratch PATSKVIME_SCRATCH. */
size_t patskvime_reduce(const int32_t *network, size_t network_length,
                        int32_t *out, size_t out_length,
                        int32_t *stack, size_t stack_length,
                        int32_t *scratch, size_t scratch_length);

/* Tests a pair of prices and flows on a network.
 * 0: the flow is feasible, no feasible flow costs less, and values has its cost together with the network's constant,
 * numerator and denominator.
 * Refusals: 1 to 5, 8 to 12; where none of 1 to 5 applies, exactly the pairs that prove themselves optimal with figures
 * that fit are passed.
 * Lend values PATSKVIME_VALUE words. */
size_t patskvime_test(const int32_t *network, size_t network_length,
                      const int32_t *pair, size_t pair_length,
                      int32_t *values, size_t values_length);

/* Restores a pair of the reduced network to the network given, whose reduction has the steps in stack; of the stack that
 * patskvime_reduce wrote these are the first 1 + 2 * stack[0] words.
 * 0: out has a pair whose flow is feasible in the network given, and no feasible flow there costs less; values has the
 * reduced network's value and the original's, which are equal. Refusals: 1 to 13.
 * Lend out PATSKVIME_PAIR words, values PATSKVIME_VALUES, scratch PATSKVIME_SCRATCH. */
size_t patskvime_restore(const int32_t *network, size_t network_length,
                         const int32_t *stack, size_t stack_length,
                         const int32_t *pair, size_t pair_length,
                         int32_t *out, size_t out_length,
                         int32_t *values, size_t values_length,
                         int32_t *scratch, size_t scratch_length);

#ifdef __cplusplus
}
#endif

#endif
