/* Microseconds of one authorize in the process: cost SCHEMA STATE REQUEST CALLS, the best of five rounds. */
#include "weirbowl.h"
#include <stdio.h>
#include <stdlib.h>
#include <time.h>

static uint8_t schema[1 << 16], state[1 << 24], request[1 << 12], out[1 << 12];

static double now(void) {
    struct timespec t;
    clock_gettime(CLOCK_MONOTONIC, &t);
    return t.tv_sec + t.tv_nsec / 1e9;
}

static size_t read_file(const char *path, uint8_t *to, size_t most) {
    FILE *file = fopen(path, "rb");
    if (!file) exit(2);
    size_t length = fread(to, 1, most, file);
    fclose(file);
    return length;
}

int main(int count, char **words) {
    if (count != 5) return 2;
    size_t schema_length = read_file(words[1], schema, sizeof schema), state_length = read_file(words[2], state, sizeof state);
    size_t length = read_file(words[3], request, sizeof request);
    long calls = atol(words[4]);
    weirbowl_site site = {0};
    if (weirbowl_open(&site, schema, schema_length, (const uint8_t *)"cost", 4)) return 3;
    if (weirbowl_merge(&site, state, state_length, out, sizeof out).status != 200) return 4;
    double best = 1e9;
    for (int round = 0; round < 5; round++) {
        double began = now();
        for (long i = 0; i < calls; i++)
            if (weirbowl_authorize(&site, request, length, out, sizeof out).status != 200) return 5;
        double each = (now() - began) / calls * 1e6;
        best = each < best ? each : best;
    }
    printf("%.2f\n", best);
    return !weirbowl_close(&site);
}
