// Times two builds of the conversion of addresses and times, `then` and `now`, by turns: every address and every time, in their order and
// shuffled, each call by itself and each waiting for the one before. Shows the least time of a call over some rounds, and that the two answer alike.
#include <stdint.h>
#include <stdio.h>
#include <stdlib.h>
#include <string.h>
#include <time.h>

enum { FIRST = -45150, COUNT = 450000 };

typedef uint8_t time_of(int64_t, uint8_t *);
typedef uint8_t address_of(uint8_t, uint8_t, uint8_t, int64_t *);

extern time_of then_time, now_time;
extern address_of then_address, now_address;

static int64_t addresses[COUNT];
static uint8_t times[COUNT][3];

static double seconds(void) {
    struct timespec t;
    clock_gettime(CLOCK_MONOTONIC, &t);
    return (double)t.tv_sec + 1e-9 * (double)t.tv_nsec;
}

// How long all addresses take to become times. No frame is 128 or more, so that what a call waits for is always 0.
static double to_times(time_of *convert, int waiting) {
    uint8_t time[3] = {0};
    double began = seconds();
    for (int i = 0; i < COUNT; i++) {
        convert(addresses[i] + (waiting ? time[2] >> 7 : 0), time);
        __asm__ volatile("" ::: "memory");
    }
    return seconds() - began;
}

// How long all times take to become addresses. No address is 2^20 or more.
static double to_addresses(address_of *convert, int waiting) {
    int64_t address = 0;
    double began = seconds();
    for (int i = 0; i < COUNT; i++) {
        uint8_t *t = times[i];
        convert(t[0], t[1], (uint8_t)(t[2] + (waiting ? address >= 1 << 20 : 0)), &address);
        __asm__ volatile("" ::: "memory");
    }
    return seconds() - began;
}

static void least(double *so_far, double took) {
    if (took < *so_far) *so_far = took;
}

static void row(const char *name, double then, double now) {
    printf("%-52s %6.2f ns %6.2f ns %6.2f\n", name, 1e9 * then / COUNT, 1e9 * now / COUNT, now / then);
}

static void compare(const char *order, int rounds) {
    for (int waiting = 0; waiting <= 1; waiting++) {
        double took[4] = {1e9, 1e9, 1e9, 1e9};
        for (int i = 0; i < rounds; i++) {
            least(&took[0], to_times(then_time, waiting));
            least(&took[1], to_times(now_time, waiting));
            least(&took[2], to_addresses(then_address, waiting));
            least(&took[3], to_addresses(now_address, waiting));
        }
        const char *how = waiting ? "each waits for the last" : "each by itself";
        char name[64];
        snprintf(name, sizeof name, "address to time, %s, %s", order, how);
        row(name, took[0], took[1]);
        snprintf(name, sizeof name, "time to address, %s, %s", order, how);
        row(name, took[2], took[3]);
    }
}

// The times of the addresses, and whether both builds convert each one alike, both ways.
static int alike(void) {
    for (int i = 0; i < COUNT; i++) {
        uint8_t *t = times[i], other[3];
        int64_t a = 0, b = 0;
        int refused = now_time(addresses[i], t) | then_time(addresses[i], other);
        refused |= now_address(t[0], t[1], t[2], &a) | then_address(t[0], t[1], t[2], &b);
        if (refused || memcmp(t, other, 3) != 0 || a != addresses[i] || b != a) {
            printf("they differ at address %lld\n", (long long)addresses[i]);
            return 0;
        }
    }
    return 1;
}

int main(int count, char **words) {
    int rounds = count > 1 ? atoi(words[1]) : 30;
    for (int i = 0; i < COUNT; i++) addresses[i] = FIRST + i;
    if (!alike()) return 1;
    printf("%d addresses, and back: both answer alike\n%-52s %9s %9s %6s\n", COUNT, "a call", "then", "now", "ratio");
    compare("in order", rounds);
    srand(1);
    for (int i = COUNT - 1; i > 0; i--) {
        int j = rand() % (i + 1);
        int64_t a = addresses[i];
        addresses[i] = addresses[j];
        addresses[j] = a;
    }
    if (!alike()) return 1;
    compare("shuffled", rounds);
    return 0;
}
