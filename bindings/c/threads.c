/* Threads at one desk, for the thread sanitizer. With the word `locked` four threads make calls under a mutex, and ask their store without it:
 * nothing is reported. With `unlocked` two threads make one call each, one after the other, and nothing but time is between them: the host
 * owes a mutex, and the sanitizer reports that there is none. */
#include "check.h"
#include <pthread.h>
#include <sched.h>
#include <stdatomic.h>

enum { THREADS = 4, CALLS = 3000, KEYS = 5 };
static const jc_shape SHAPE = {.stripes = 1, .capacity = 3, .history = 64, .read_through = true, .write_through = true, .out_size = sizeof(jc_out)};
static const jc_entry NO_ENTRIES[1];

static jc_desk desk;
static pthread_mutex_t mutex = PTHREAD_MUTEX_INITIALIZER;
static pthread_cond_t changed = PTHREAD_COND_INITIALIZER;
static atomic_uint loads, joins, checks;

/* A call, with the mutex held at its begin and at its end: what it asks, it asks without. */
static void call(uint32_t session, uint32_t op, const char *key, jc_out *out) {
    CHECK(begin(&desk, session, op, key, "v", out) == JC_OK);
    while (out->next == JC_NEXT_REFUSED) {
        pthread_cond_wait(&changed, &mutex);
        CHECK(begin(&desk, session, op, key, "v", out) == JC_OK);
    }
    const uint64_t call = out->call, load = out->number;
    if (out->next == JC_NEXT_JOINED) {
        atomic_fetch_add(&joins, 1);
        do {
            pthread_cond_wait(&changed, &mutex);
            CHECK(jc_pick_up(&desk, session, call, BYTES(key), load, out) == JC_OK);
        } while (out->next == JC_NEXT_NOT_YET);
        CHECK(out->next == JC_NEXT_DONE);
        /* Who was refused for a full history waits for this, too: with an answer parked no generation ends. */
        pthread_cond_broadcast(&changed);
    } else if (out->next != JC_NEXT_DONE) {
        const bool is_load = out->next == JC_ASK_LOAD;
        pthread_mutex_unlock(&mutex);
        atomic_fetch_add(&loads, is_load);
        sched_yield();
        pthread_mutex_lock(&mutex);
        CHECK((is_load ? jc_commit_load(&desk, load, JC_ANSWER_FOUND, 0, BYTES("v"), out) : jc_commit_write(&desk, load, JC_ANSWER_WRITTEN, 0, out)) == JC_OK);
        pthread_cond_broadcast(&changed);
    }
}

static void *make_calls(void *number) {
    const uint32_t session = *(const uint32_t *)number;
    jc_out out = {0};
    for (unsigned i = 0; i < CALLS; i++) {
        const char key[] = {(char)('a' + (i * 7 + session) % KEYS), 0};
        pthread_mutex_lock(&mutex);
        call(session, i % 4 == 0 ? JC_OP_PUT : i % 4 == 1 ? JC_OP_REMOVE : JC_OP_GET, key, &out);
        pthread_mutex_unlock(&mutex);
    }
    atomic_fetch_add(&checks, checks_made);
    return NULL;
}

static void locked(void) {
    pthread_t threads[THREADS];
    uint32_t numbers[THREADS];
    for (uint32_t i = 0; i < THREADS; i++) {
        numbers[i] = i;
        CHECK(pthread_create(&threads[i], NULL, make_calls, &numbers[i]) == 0);
    }
    for (unsigned i = 0; i < THREADS; i++) {
        CHECK(pthread_join(threads[i], NULL) == 0);
    }
    printf("%u loads, %u joined; %u checks\n", atomic_load(&loads), atomic_load(&joins), atomic_load(&checks));
}

/* It orders nothing: that is what the sanitizer sees. */
static atomic_uint turn;

static void *put_in_turn(void *number) {
    const uint32_t session = *(const uint32_t *)number;
    while (atomic_load_explicit(&turn, memory_order_relaxed) != session) {
    }
    jc_out out = {0};
    jc_value value;
    CHECK(begin(&desk, session, JC_OP_PUT, "a", "v", &out) == JC_OK);
    CHECK(jc_commit_write(&desk, out.number, JC_ANSWER_WRITTEN, 0, &out) == JC_OK);
    CHECK(jc_hit(&desk, session, BYTES("a"), &value) == JC_OK);
    atomic_store_explicit(&turn, session + 1, memory_order_relaxed);
    return NULL;
}

static void unlocked(void) {
    pthread_t threads[2];
    uint32_t numbers[2] = {0, 1};
    for (unsigned i = 0; i < 2; i++) {
        CHECK(pthread_create(&threads[i], NULL, put_in_turn, &numbers[i]) == 0);
    }
    for (unsigned i = 0; i < 2; i++) {
        CHECK(pthread_join(threads[i], NULL) == 0);
    }
}

int main(int count, char **words) {
    CHECK(count == 2 && jc_open(&desk, &SHAPE, 0, NO_ENTRIES, 0) == JC_OK);
    if (strcmp(words[1], "locked") == 0) {
        locked();
    } else {
        unlocked();
    }
    CHECK(jc_close(&desk) == JC_OK);
    return 0;
}
