/* Eight threads read one pool at once, and each finds what is there. With the word `itself` they
   pass the pool itself to the library and no copy, as the header forbids, so that what watches
   threads has something to tell. tools/library builds and runs it. Exit status: 0, or the line at
   which an answer was wrong. */
#include "library_readers.h"

#include <pthread.h>

enum { THREADS = 8, ROUNDS = 50 };

/* A thread, and the line at which an answer was wrong in it. */
typedef struct reader {
    pthread_t thread;
    protolink_pool *pool;
    int status;
} reader;

static void *read_rounds(void *at)
{
    reader *self = (reader *)at;
    int round;
    for (round = 0; round < ROUNDS && self->status == 0; round++)
        self->status = read_all(self->pool);
    return NULL;
}

#undef protolink_message

static void *read_itself(void *at)
{
    reader *self = (reader *)at;
    protolink_message_info message;
    int round;
    for (round = 0; round < ROUNDS; round++)
        protolink_message(self->pool, 0, &message);
    return NULL;
}

int main(int count, char **words)
{
    protolink_pool pool = PROTOLINK_POOL_EMPTY;
    reader readers[THREADS];
    int i, status = 0;
    void *(*run)(void *) = count > 1 && strcmp(words[1], "itself") == 0 ? read_itself : read_rounds;
    WANT(protolink_pool_add_script(&pool, as_bytes(read_first), strlen(read_first)) == 0);
    WANT(protolink_pool_add_script(&pool, as_bytes(read_second), strlen(read_second)) == 0);
    for (i = 0; i < THREADS; i++) {
        readers[i].pool = &pool;
        readers[i].status = 0;
        WANT(pthread_create(&readers[i].thread, NULL, run, &readers[i]) == 0);
    }
    for (i = 0; i < THREADS; i++) {
        WANT(pthread_join(readers[i].thread, NULL) == 0);
        if (status == 0)
            status = readers[i].status;
    }
    protolink_pool_clear(&pool);
    return status;
}
