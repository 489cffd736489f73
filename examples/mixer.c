/* Four threads mix a number over and over, a million times each, or as often as the first argument says, each for itself;
   the results are written. Nothing is shared on the way, so a run by workers can use four processors. */
#include "text.h"
#include <pthread.h>

#define THREADS 4

static unsigned long rounds = 1000000;

static void *mix(void *seed)
{
    unsigned long x = (unsigned long)seed;
    for (unsigned long i = 0; i < rounds; i++) {
        x ^= x << 13;
        x ^= x >> 7;
        x ^= x << 17;
    }
    return (void *)x;
}

static unsigned long number_of(const char *text)
{
    unsigned long number = 0;
    for (; *text >= '0' && *text <= '9'; text++)
        number = number * 10 + (unsigned long)(*text - '0');
    return number;
}

int main(int argc, char **argv)
{
    if (argc > 1)
        rounds = number_of(argv[1]);
    pthread_t threads[THREADS];
    for (unsigned long i = 0; i < THREADS; i++) {
        if (pthread_create(&threads[i], NULL, mix, (void *)(i + 1)) != 0)
            return 1;
    }
    for (int i = 0; i < THREADS; i++) {
        void *mixed;
        pthread_join(threads[i], &mixed);
        put_number((unsigned long)mixed);
        put_text(i + 1 < THREADS ? " " : "\n");
    }
    return 0;
}
