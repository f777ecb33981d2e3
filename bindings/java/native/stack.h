/* Whether the thread has enough stack left to begin a call.
 *
 * A virtual machine throws StackOverflowError when a method is entered less than its shadow pages (80 kB on x86-64
 * Linux) above its guard pages (16 kB). If that happened between a call's reservation and its commit, the key
 * would stay reserved for ever. So a call begins only if there is more left than that by a margin, which is far
 * more than a last phase at the same depth takes. */
#ifndef CADWRELCH_STACK_H
#define CADWRELCH_STACK_H
#include <pthread.h>
#include <stdbool.h>
#include <stdint.h>

enum { STACK_SHADOW_AND_GUARD = 96 << 10, STACK_MARGIN = 32 << 10 };

/* The lowest address at which a call of this thread may begin; 0: not found out yet. */
static _Thread_local uintptr_t stack_limit;

/* Finds it out. A thread whose stack isn't known may always begin. */
static uintptr_t stack_limit_of_thread(void) {
    pthread_attr_t attributes;
    void *lowest = NULL;
    size_t size = 0;
    if (pthread_getattr_np(pthread_self(), &attributes) != 0) return 1;
    bool is_known = pthread_attr_getstack(&attributes, &lowest, &size) == 0;
    pthread_attr_destroy(&attributes);
    return is_known ? (uintptr_t)lowest + STACK_SHADOW_AND_GUARD + STACK_MARGIN : 1;
}

static bool has_stack(void) {
    char here = 0;
    if (stack_limit == 0) stack_limit = stack_limit_of_thread();
    return (uintptr_t)(void *)&here > stack_limit;
}
#endif
