/* A proved minimiser and verifier for hazard-free two-level logic.
 *
 * Link with crates/quiet_c/out/libquiet_c.a, which `rt lib` writes in crates/quiet_c (x86-64).
 *
 * There are n inputs, 1 to 10, numbered from 0. A point is a number from 0 to 2^n - 1; input i has weight 2^i in it.
 * table:        2^n bytes, one for each point: 0, 1, or 2 for don't care.
 * transitions:  16-bit numbers, two for each transition: start point A, end point B. There are 0 to 64 transitions, and A and B differ in at
 *               most five inputs. With none the problem is the classical one: a network with the table's values is asked for.
 * A product is n bytes, input 0 first: 0 inverted literal, 1 plain literal, 2 absent. A network is its products one after another.
 * Each literal has a wire: two 16-bit numbers, its product's place in the network, from 0 on, and its input. In a transition the wires of
 * the inputs in which A and B differ move: each sees A's value first, and then, once, B's. A run is all of them in some order. Its outputs
 * are the network's before the first wire moves and after each.
 *
 * Each slice is a pointer and a length in elements. The pointer is not null, also where the length is 0 (an empty list of transitions is
 * such a slice), and points to so many elements, which nothing else writes during the call; cover and wires overlap no other slice. Nothing
 * else is asked: any such arguments get an answer, and nothing outside the slices is read or written.
 */
#ifndef QUIET_H
#define QUIET_H

#include <stddef.h>
#include <stdint.h>

#ifdef __cplusplus
extern "C" {
#endif

/* The most inputs that a transition changes. No problem has more required cubes, and no network that is made more products; and the most
 * products of a network that is verified. Such a network has at most QUIET_MOST_WIRES literals, so a run of it has no more wires, and a
 * buffer of 2 * QUIET_MOST_WIRES numbers is always long enough. */
#define QUIET_MOST_MOVING 5
#define QUIET_MOST_REQUIRED 3072
#define QUIET_MOST_PRODUCTS 3072
#define QUIET_MOST_WIRES (10 * QUIET_MOST_PRODUCTS)

/* Refusals. The checks run in the order of this list, and the first that applies is returned. Fields that are not named are 0.
 *
 *  1  n is 0 or above 10
 *  2  table length is not 2^n
 *  3  a table byte above 2: the lowest such point
 *  4  transition list odd, or above 64 transitions
 *  5  A or B at least 2^n: the first such transition
 * 14  A and B differ in more than QUIET_MOST_MOVING inputs: the first such transition
 *  6  a 2 in some [A,B]: the first such transition, its lowest such point
 *  7  the kind's rule is broken: the first such transition; the point is the lowest wrong value (static transition) or the lowest one
 *     before a wrong move (dynamic transition)
 *  8  more than QUIET_MOST_REQUIRED required cubes. This never comes: what the checks above let through never has so many
 *  9  quiet_minimise: buffer shorter than n times the number of required cubes. Each 1 of the table that lies in no [A,B] is one of them,
 *     with itself for its label
 * 10  quiet_minimise: a required cube blocks, so no network is hazard-free: the transition and the label of the first such cube, the
 *     steps of its growth, and the lowest zero that it ends at. The transition is always one of the list
 * 11  quiet_verify: network length no multiple of n, or above QUIET_MOST_PRODUCTS products
 * 12  quiet_verify: a network byte above 2: the first such product
 * 15  quiet_verify: wire buffer shorter than 2 * n * products numbers, whatever the verdict would be
 */

/* Writes a minimal hazard-free network into cover: it is 1 at every 1 of the table. n * QUIET_MOST_REQUIRED bytes are always enough. The
 * products stand in ascending order of their bytes, compared from input 0 on: a 2, an absent literal, comes after 0 and 1. For an empty list
 * of transitions they are prime implicants of which none can be left out, and refusal 10 never comes.
 *
 * Answer: 256 * the number of products, so bits 0 to 7 are 0; or a refusal:
 *   bits  0 to  7  its number
 *   bits  8 to 23  transition
 *   bits 24 to 39  label or point
 *   bits 40 to 47  steps
 *   bits 48 to 63  lowest zero
 * Bytes after the last product keep their contents, and so does the whole buffer after a refusal.
 */
uint64_t quiet_minimise(size_t n, const uint8_t *table, size_t table_length, const uint16_t *transitions, size_t transitions_length,
                        uint8_t *cover, size_t cover_length);

/* Whether a network is hazard-free, and where it is not, what shows the fault: a run, or a point. wires_length counts 16-bit numbers, two for
 * each wire.
 *
 * Answer:
 *   bits  0 to  7  0 refused, 1 passed, or the condition that fails first:
 *                  2 (a) the product contains the point, which is a 0 of the table
 *                  3 (c) the product intersects the transition's privileged cube and lacks its start point
 *                  4 (b) the required cube with this transition and label lies in no single product; for a 1 that lies in no [A,B] the
 *                    transition is the number of transitions, so 0 for an empty list: transitions_length / 2 tells it from a transition
 *   bits  8 to 15  the refusal's number
 *   bits 16 to 31  product
 *   bits 32 to 38  transition
 *   bits 39 to 48  label or point
 *   bits 49 to 63  the number of wires written
 *
 * For verdict 3, and for verdict 4 at a transition of the list from 1 to 1, a run of the transition stands at the beginning of wires: every
 * wire that moves, once, in an order whose outputs are not allowed. Allowed are, from 1 to 1, only 1s; from 1 to 0, one or more 1s and then
 * one or more 0s; from 0 to 1, one or more 0s and then one or more 1s. Which of the runs that are not allowed it is, is free. From 1 to 1 it is
 * empty where no wire moves, because A = B or no product has a literal on an input that moves: its one output is 0, and has to be 1.
 *
 * For the other faults no wire is written. Table and network differ at rest: at the point of verdict 2 the table is 0 and the network 1, at
 * the label of verdict 4 the table is 1 and the network 0.
 *
 * The number of wires is 0 for an empty run as for none; the verdict and the transition tell which. Verdict 3 always has a run, which is never
 * empty. Verdict 4 has one if its transition is below transitions_length / 2 and the table is 1 at both A and B.
 *
 * Numbers after the last wire keep their contents, and so does the whole buffer where there is no run, and after a refusal.
 */
uint64_t quiet_verify(size_t n, const uint8_t *table, size_t table_length, const uint16_t *transitions, size_t transitions_length,
                      const uint8_t *network, size_t network_length, uint16_t *wires, size_t wires_length);

/* Fields of an answer of quiet_minimise. */
#define QUIET_REFUSAL(answer) ((unsigned)((answer)&255))
#define QUIET_COUNT(answer) ((size_t)((answer) >> 8))
#define QUIET_TRANSITION(answer) ((unsigned)((answer) >> 8 & 65535))
#define QUIET_POINT(answer) ((unsigned)((answer) >> 24 & 65535))
#define QUIET_STEPS(answer) ((unsigned)((answer) >> 40 & 255))
#define QUIET_LOWEST(answer) ((unsigned)((answer) >> 48 & 65535))

/* Fields of an answer of quiet_verify. */
#define QUIET_VERDICT(answer) ((unsigned)((answer)&255))
#define QUIET_VERDICT_REFUSAL(answer) ((unsigned)((answer) >> 8 & 255))
#define QUIET_VERDICT_PRODUCT(answer) ((unsigned)((answer) >> 16 & 65535))
#define QUIET_VERDICT_TRANSITION(answer) ((unsigned)((answer) >> 32 & 127))
#define QUIET_VERDICT_POINT(answer) ((unsigned)((answer) >> 39 & 1023))
#define QUIET_VERDICT_WIRES(answer) ((size_t)((answer) >> 49))

#ifdef __cplusplus
}
#endif

#endif
