/*
 * large.c - writes a call list of 100,000 calls on a heap of 4,095 objects, always the same one.
 *
 *   large > large.calls
 */
#include <stdint.h>
#include <stdio.h>

static uint64_t state = 1;

/* A number below `bound`. */
static unsigned below(unsigned bound)
{
    state = state * 6364136223846793005u + 1442695040888963407u;
    return (unsigned)((state >> 33) % bound);
}

int main(void)
{
    const unsigned objects = 4095, roots = 64;

    printf("create %u %u\n", objects, roots);
    for (int i = 1; i < 100000; i++) {
        unsigned kind = below(1000);

        if (kind < 400)
            printf("allocate %u\n", below(9));
        else if (kind < 800)
            printf("write %u %u %u\n", 1 + below(objects), below(4), below(objects + 1));
        else if (kind < 850)
            printf("root %u %u\n", below(roots), below(objects + 1));
        else if (kind < 900)
            printf("read %u %u\n", 1 + below(objects), below(8));
        else if (kind < 985)
            printf("show %u\n", 1 + below(objects));
        else if (kind < 990)
            printf("sink %u\n", 1 + below(objects));
        else if (kind < 995)
            printf("analyse\n");
        else
            printf("collect clusters\n");
    }
    return 0;
}
