/* Four threads count to a thousand each, or to the number that the first argument names, on two counters: one that a locked
   instruction raises, and one that a mutex keeps. */
#include "text.h"
#include <pthread.h>

#define THREADS 4

static pthread_mutex_t mutex = PTHREAD_MUTEX_INITIALIZER;
static unsigned long rounds = 1000, by_lock, by_mutex;

static void *count(void *unused)
{
    for (unsigned long i = 0; i < rounds; i++) {
        __atomic_fetch_add(&by_lock, 1, __ATOMIC_SEQ_CST);
        pthread_mutex_lock(&mutex);
        by_mutex = by_mutex + 1;
        pthread_mutex_unlock(&mutex);
    }
    return unused;
}

static unsigned long number_of(const char *text)
{
    unsigned long number = 0;
    for (; *text >= '0' && *text <= '9'; text++)
        number = number * 10 + (unsigned long)(*text - '0');
    return number;
}

int main(int argc, char **argv)
{
    if (argc > 1)
        rounds = number_of(argv[1]);
    pthread_t threads[THREADS];
    for (int i = 0; i < THREADS; i++) {
        if (pthread_create(&threads[i], NULL, count, NULL) != 0)
            return 1;
    }
    for (int i = 0; i < THREADS; i++)
        pthread_join(threads[i], NULL);
    put_text("locked add ");
    put_number(by_lock);
    put_text(", mutex ");
    put_number(by_mutex);
    put_text("\n");
    return 0;
}
