/* Asks for memory in each of the ways that refuse.c knows, and for a thread, and prints for each whether it was given:
 * six letters for six allocations and one for the thread, y or n. */
#define _GNU_SOURCE
#include <malloc.h>
#include <pthread.h>
#include <stdlib.h>
#include <unistd.h>

static void *end_at_once(void *with)
{
    return with;
}

int main(void)
{
    char answers[] = "nnnnnnn\n";
    pthread_t thread;
    void *volatile given[6] = {NULL};
    void *aligned = NULL;
    given[0] = malloc(10);
    given[1] = calloc(3, 7);
    given[2] = realloc(given[0], 20);
    given[3] = aligned_alloc(64, 128);
    given[4] = posix_memalign(&aligned, 64, 10) == 0 ? aligned : NULL;
    given[5] = memalign(32, 10);
    for (int i = 0; i < 6; i++)
        if (given[i] != NULL)
            answers[i] = 'y';
    if (pthread_create(&thread, NULL, end_at_once, NULL) == 0) {
        pthread_join(thread, NULL);
        answers[6] = 'y';
    }
    return write(1, answers, 8) == 8 ? 0 : 1;
}
