/*
 * How much stack some work takes: it is done in a thread whose stack was painted,
 * and what is no longer paint is counted, less what a thread takes that does nothing.
 */
#include <pthread.h>
#include <stddef.h>
#include <stdint.h>
#include <stdlib.h>
#include <string.h>

enum { STACK = 1 << 20, PAINT = 0xA5 };

static _Alignas(4096) uint8_t stack[STACK];

/* Bytes of stack that a thread wrote below its first. */
static size_t written(void *(*work)(void *), void *given)
{
    pthread_attr_t attributes;
    pthread_t thread;
    memset(stack, PAINT, STACK);
    if (pthread_attr_init(&attributes) != 0 || pthread_attr_setstack(&attributes, stack, STACK) != 0
        || pthread_create(&thread, &attributes, work, given) != 0 || pthread_join(thread, NULL) != 0)
        exit(2);
    pthread_attr_destroy(&attributes);
    size_t left = 0;
    while (left < STACK && stack[left] == PAINT)
        left++;
    return STACK - left;
}

static void *nothing(void *given)
{
    return given;
}

static size_t taken(void *(*work)(void *), void *given)
{
    return written(work, given) - written(nothing, NULL);
}
