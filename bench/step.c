/* Times the proved step, whole lists of steps and the damage check by themselves. Prints ns for each, the least of several rounds. */
#include <stdint.h>
#include <stdio.h>
#include <time.h>

uint32_t speed_take(size_t turns);
uint32_t speed_singly(size_t turns);
uint32_t speed_lists(size_t lists);
size_t speed_check(size_t turns);

static double now(void) {
    struct timespec t;
    clock_gettime(CLOCK_PROCESS_CPUTIME_ID, &t);
    return (double)t.tv_sec * 1e9 + (double)t.tv_nsec;
}

static double least(double so_far, double from, double to) {
    return to - from < so_far ? to - from : so_far;
}

int main(void) {
    const size_t turns = 240000, lists = 1000, listed = 256;
    double take = 1e18, check = 1e18, singly = 1e18, whole = 1e18;
    uint32_t accepted = 0, by_one = 0, by_list = 0;
    size_t passed = 0;
    for (int round = 0; round < 9; round++) {
        double t = now();
        accepted = speed_take(turns);
        take = least(take, t, now());
        t = now();
        passed = speed_check(turns);
        check = least(check, t, now());
        t = now();
        by_one = speed_singly(lists * listed);
        singly = least(singly, t, now());
        t = now();
        by_list = speed_lists(lists);
        whole = least(whole, t, now());
    }
    printf("a step with its damage check: %.0f ns (%u of %zu accepted)\n", take / (double)turns, accepted, turns);
    printf("the damage check alone: %.0f ns (%zu of %zu passed)\n", check / (double)turns, passed, turns);
    printf("a list of %zu steps: %.1f us singly, %.1f us in one go, ratio %.2f (%u and %u accepted)\n", listed,
           singly / (double)lists / 1e3, whole / (double)lists / 1e3, singly / whole, by_one, by_list);
    return by_one == by_list ? 0 : 1;
}
