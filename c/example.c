/* Set pieces K2, K4 and K7 and a function without transitions through both calls, printed as the program quiet prints them; and K5 and K9,
 * two networks that fail, each with the run that shows it.
 *
 *   cc -I c c/example.c crates/quiet_c/out/libquiet_c.a -o example
 */
#include "quiet.h"
#include <stdio.h>

struct problem {
    size_t n;
    const uint8_t *table;
    const uint16_t *transitions;
    size_t transitions_length;
};

/* The verdict; of a network that fails also product, transition and label or point, and the run: a line for each wire, product and input. */
static void judge(struct problem p, const uint8_t *network, size_t network_length)
{
    static uint16_t wires[2 * QUIET_MOST_WIRES];
    uint64_t answer = quiet_verify(p.n, p.table, (size_t)1 << p.n, p.transitions, p.transitions_length, network, network_length, wires,
                                   2 * QUIET_MOST_WIRES);
    if (QUIET_VERDICT(answer) < 2) {
        printf("verdict %u\n", QUIET_VERDICT(answer));
        return;
    }
    printf("verdict %u %u %u %u\n", QUIET_VERDICT(answer), QUIET_VERDICT_PRODUCT(answer), QUIET_VERDICT_TRANSITION(answer),
           QUIET_VERDICT_POINT(answer));
    size_t count = QUIET_VERDICT_WIRES(answer);
    printf("wires %zu\n", count);
    for (size_t k = 0; k < count; k++)
        printf("%u %u\n", wires[2 * k], wires[2 * k + 1]);
}

static void solve(struct problem p)
{
    uint8_t cover[10 * QUIET_MOST_REQUIRED];
    uint64_t answer = quiet_minimise(p.n, p.table, (size_t)1 << p.n, p.transitions, p.transitions_length, cover, sizeof cover);
    if (QUIET_REFUSAL(answer) != 0) {
        printf("refused %u %u %u %u %u\n", QUIET_REFUSAL(answer), QUIET_TRANSITION(answer), QUIET_POINT(answer), QUIET_STEPS(answer),
               QUIET_LOWEST(answer));
        return;
    }
    size_t count = QUIET_COUNT(answer);
    printf("products %zu\n", count);
    for (size_t j = 0; j < count; j++) {
        for (size_t i = 0; i < p.n; i++)
            putchar("01-"[cover[p.n * j + i]]);
        putchar('\n');
    }
    judge(p, cover, p.n * count);
}

int main(void)
{
    static const uint8_t k2_table[] = {1, 1, 1, 0};
    static const uint16_t k2_transitions[] = {0, 3};
    struct problem k2 = {2, k2_table, k2_transitions, 2};
    solve(k2);

    static const uint8_t k4_table[] = {0, 1, 0, 1, 0, 0, 1, 1};
    static const uint16_t k4_transitions[] = {3, 7};
    struct problem k4 = {3, k4_table, k4_transitions, 2};
    solve(k4);

    static const uint8_t k7_table[] = {0, 2, 1, 1, 1, 2, 1, 0};
    static const uint16_t k7_transitions[] = {2, 7, 6, 0};
    struct problem k7 = {3, k7_table, k7_transitions, 4};
    solve(k7);

    /* no transitions, K4's function alone: the length is 0, and the pointer is not null all the same */
    struct problem alone = {3, k4_table, k4_transitions, 0};
    solve(alone);

    /* K5, a network for K4: the outputs are 1, 0, 1, where all have to be 1 */
    static const uint8_t k5[] = {1, 2, 0, 2, 1, 1};
    judge(k4, k5, sizeof k5);

    /* K9, a network for K7: the outputs are 1, 1, 0, 1, 0, where there has to be one fall */
    static const uint8_t k9[] = {2, 1, 0, 0, 1, 2, 0, 2, 1};
    judge(k7, k9, sizeof k9);
    return 0;
}
