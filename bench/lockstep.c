/* The loop of crates/lockstep over the peer: the same events in the same order. */
#include <stdio.h>

#include "machine.h"

enum { RUNS = 100, ROUNDS = 1890 };

int main(void)
{
    static uint32_t run[RUN];
    const uint32_t values[MOST_PROCESSES] = {7, 4, 9, 12, 3, 7, 4, 9, 12, 3, 7, 4, 9, 12, 3, 11};
    for (int night = 0; night < RUNS; night++) {
        begin(run, MOST_PROCESSES, values, MOST_PROCESSES);
        for (int round = 0; round < ROUNDS; round++) {
            for (int p = 0; p < MOST_PROCESSES; p++)
                for (int q = 0; q < MOST_PROCESSES; q++)
                    send_to(run, p, q);
            for (int p = 0; p < MOST_PROCESSES; p++) {
                for (int q = 0; q < MOST_PROCESSES; q++)
                    receive_from(run, p, q);
                step(run, p);
            }
        }
    }
    uint32_t *first = line(run, 0);
    if (run[EVENTS] == 997920 && first[ROUND] == ROUNDS + 1 && first[VALUE] == 3 && first[REACH] == full(MOST_PROCESSES))
        puts("ok");
    return 0;
}
