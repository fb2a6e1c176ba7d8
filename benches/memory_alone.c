/* What the memory alone costs of a move of a drawn node: a slot that leads to a place, both read and written, nothing else.
   mkdir -p out && gcc -O2 benches/memory_alone.c -o out/memory_alone && out/memory_alone */
#include <stdint.h>
#include <stdio.h>
#include <stdlib.h>
#include <time.h>

static double seconds(void) {
    struct timespec now;
    clock_gettime(CLOCK_MONOTONIC, &now);
    return now.tv_sec + 1e-9 * now.tv_nsec;
}

/* Slots of 16 bytes, and twice as many places of 32. */
static void measure(size_t nodes, size_t moves) {
    uint64_t *slots = malloc(nodes * 16);
    uint64_t *places = calloc(nodes * 2, 32);
    uint64_t drawn = 88172645463325252u, sum = 0;
    if (slots == NULL || places == NULL) exit(1);
    for (size_t i = 0; i < nodes; i++) slots[2 * i] = (i * 2654435761u) % (2 * nodes);
    double start = seconds();
    for (size_t move = 0; move < moves; move++) {
        drawn ^= drawn << 13;
        drawn ^= drawn >> 7;
        drawn ^= drawn << 17;
        size_t node = (drawn ^ (sum & 1)) % nodes;
        uint64_t place = slots[2 * node];
        sum += places[4 * place];
        places[4 * place] = move;
        slots[2 * node] = (place + 12345) % (2 * nodes);
    }
    printf("%zu nodes: %.0f ns (%u)\n", nodes, (seconds() - start) / moves * 1e9, (unsigned)(sum & 1));
    free(slots);
    free(places);
}

int main(void) {
    measure(1000, 10000000);
    measure(1000000, 10000000);
}
