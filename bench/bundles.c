/* How fast a bundle is read and joined: bench/bundles BUNDLE [ROUNDS] prints MB/s of reading and milliseconds of
   reading with joining, over many rounds. */
#include <stdint.h>
#include <stdio.h>
#include <stdlib.h>
#include <time.h>

uint32_t tethersecond_read(const uint8_t *bytes, size_t len);
uint32_t tethersecond_join(const uint8_t *bytes, size_t len);

static double seconds(void) {
    struct timespec t;
    clock_gettime(CLOCK_MONOTONIC, &t);
    return t.tv_sec + t.tv_nsec * 1e-9;
}

int main(int argc, char **argv) {
    static uint8_t bytes[65536];
    FILE *file = argc > 1 ? fopen(argv[1], "rb") : NULL;
    if (!file) {
        fprintf(stderr, "usage: bench/bundles BUNDLE [ROUNDS]\n");
        return 1;
    }
    size_t len = fread(bytes, 1, sizeof bytes, file);
    fclose(file);
    int rounds = argc > 2 ? atoi(argv[2]) : 2000;
    uint32_t answer = 0;
    double from = seconds();
    for (int i = 0; i < rounds; i++) answer = tethersecond_read(bytes, len);
    double took = seconds() - from;
    printf("%zu bytes: read, answer %u: %.1f MB/s (%d times in %.2f s)\n", len, (unsigned)answer, len * (double)rounds / took / 1e6, rounds, took);
    rounds = rounds / 20 + 1;
    from = seconds();
    for (int i = 0; i < rounds; i++) answer = tethersecond_join(bytes, len);
    took = seconds() - from;
    printf("%zu bytes: read and joined, answer %u: %.3f ms (%d times in %.2f s)\n", len, (unsigned)answer, took * 1e3 / rounds, rounds, took);
    return 0;
}
