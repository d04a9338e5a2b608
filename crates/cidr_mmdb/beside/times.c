/* times FILE ROUNDS: the nanoseconds of a look-up of random IPv4 addresses by libmaxminddb, and of opening the file. */
#include <arpa/inet.h>
#include <maxminddb.h>
#include <stdint.h>
#include <stdio.h>
#include <stdlib.h>
#include <string.h>
#include <time.h>

static double now(void) {
    struct timespec time;
    clock_gettime(CLOCK_MONOTONIC, &time);
    return (double)time.tv_sec * 1e9 + (double)time.tv_nsec;
}

int main(int argc, char **argv) {
    if (argc != 3) return 2;
    long rounds = atol(argv[2]);
    double begun = now();
    MMDB_s database;
    if (MMDB_open(argv[1], MMDB_MODE_MMAP, &database) != MMDB_SUCCESS) return 1;
    double opening = now() - begun;
    uint64_t state = 0x9e3779b97f4a7c15;
    struct sockaddr_in *addresses = calloc((size_t)rounds, sizeof *addresses);
    if (!addresses) return 1;
    for (long i = 0; i < rounds; i++) {
        state ^= state << 13;
        state ^= state >> 7;
        state ^= state << 17;
        addresses[i].sin_family = AF_INET;
        addresses[i].sin_addr.s_addr = htonl((uint32_t)state);
    }
    long found = 0;
    begun = now();
    for (long i = 0; i < rounds; i++) {
        int error;
        MMDB_lookup_result_s result = MMDB_lookup_sockaddr(&database, (struct sockaddr *)&addresses[i], &error);
        found += error == MMDB_SUCCESS && result.found_entry;
    }
    printf("opening %.0f ns, a look-up %.1f ns (%ld found)\n", opening, (now() - begun) / (double)rounds, found);
    MMDB_close(&database);
    return 0;
}
