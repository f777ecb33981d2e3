/* What stands between the library and the C library's allocator, for a processor of which the kit has no such object: the functions of the
 * kit's liblibc_c.a. An allocation is never of 0 bytes: it takes `least` then. A failed one gives an address that nothing is read from. */
typedef __SIZE_TYPE__ size_t; /* the kit's clang has no headers */

void *malloc(size_t size);
void *realloc(void *at, size_t size);
void free(void *at);

typedef struct taken {
    unsigned long is_there;
    void *at;
} taken;

static char nothing;

static taken taken_of(void *at) {
    return (taken){at != 0, at != 0 ? at : &nothing};
}

taken rattle_alloc(size_t size, size_t least);
taken rattle_alloc(size_t size, size_t least) {
    return taken_of(malloc(size != 0 ? size : least));
}

taken rattle_realloc(void *at, size_t old, size_t size, size_t least);
taken rattle_realloc(void *at, size_t old, size_t size, size_t least) {
    (void)old;
    return taken_of(realloc(at, size != 0 ? size : least));
}

void rattle_dealloc(void *at);
void rattle_dealloc(void *at) {
    free(at);
}
