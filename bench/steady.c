// How long the same work takes on up to four processors at once: prints the greatest of their times, in
// microseconds. What others do on the machine shows in it.
#define _GNU_SOURCE
#include <pthread.h>
#include <sched.h>
#include <unistd.h>
#include "common.h"

enum { MOST = 4, LANES = 32, ROUNDS = 16000000 };

struct share {
    int processor;
    uint64_t took;
    uint64_t left;
};

static void *work(void *given) {
    struct share *share = given;
    cpu_set_t one;
    CPU_ZERO(&one);
    CPU_SET(share->processor, &one);
    sched_setaffinity(0, sizeof one, &one);
    uint64_t words[LANES];
    for (int i = 0; i < LANES; i++) words[i] = 77 * i + 1;
    uint64_t start = now();
    for (int round = 0; round < ROUNDS; round++)
        for (int i = 0; i < LANES; i++) words[i] = (words[i] + (words[i] << 1)) ^ (words[i] >> 7);
    share->took = now() - start;
    for (int i = 0; i < LANES; i++) share->left ^= words[i];
    return NULL;
}

int main(void) {
    long online = sysconf(_SC_NPROCESSORS_ONLN);
    int count = online < MOST ? (int)online : MOST;
    pthread_t threads[MOST];
    struct share shares[MOST] = {0};
    for (int i = 0; i < count; i++) {
        shares[i].processor = i;
        if (pthread_create(&threads[i], NULL, work, &shares[i])) return 1;
    }
    uint64_t greatest = 0, left = 0;
    for (int i = 0; i < count; i++) {
        pthread_join(threads[i], NULL);
        if (shares[i].took > greatest) greatest = shares[i].took;
        left ^= shares[i].left;
    }
    // The words are used, so that the compiler keeps the work.
    if (left == 1) return 1;
    printf("%" PRIu64 "\n", greatest / 1000);
    return 0;
}
