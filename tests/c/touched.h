/* How many bytes of its stack a thread has touched after a call. */
#ifndef TOUCHED_H
#define TOUCHED_H
#include <pthread.h>
#include <stdint.h>
#include <stdlib.h>
#include <string.h>
#include <sys/mman.h>

enum { STACK_SIZE = 1 << 20, PAINT = 0xA5 };

static inline size_t touched(void *(*call)(void *)) {
    uint8_t *stack = mmap(NULL, STACK_SIZE, PROT_READ | PROT_WRITE, MAP_PRIVATE | MAP_ANONYMOUS, -1, 0);
    if (stack == MAP_FAILED) exit(2);
    memset(stack, PAINT, STACK_SIZE);
    pthread_attr_t attributes;
    pthread_t thread;
    pthread_attr_init(&attributes);
    if (pthread_attr_setstack(&attributes, stack, STACK_SIZE) || pthread_create(&thread, &attributes, call, NULL) || pthread_join(thread, NULL)) exit(2);
    size_t below = 0;
    while (below < STACK_SIZE && stack[below] == PAINT) below++;
    return STACK_SIZE - below;
}
#endif
