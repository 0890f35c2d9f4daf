/* Refuses the library each of its requests for memory in turn: a call must then say so and leave
   its pool as it was, or succeed where it could do without, and no block may be left.
   tools/library builds it with -Wl,--wrap=malloc,--wrap=realloc,--wrap=free, and runs it.
   It prints a line for each call: its requests, and how many were wrong. Exit status: 0 none. */
#include "library_readers.h"

#include <stdio.h>

void *__real_malloc(size_t size);
void *__real_realloc(void *block, size_t size);
void __real_free(void *block);

static long wanted, requests, refused, blocks;

static int is_refused(void)
{
    requests++;
    if (requests != wanted)
        return 0;
    refused++;
    return 1;
}

static void *counted(void *block)
{
    blocks += block != NULL;
    return block;
}

void *__wrap_malloc(size_t size)
{
    return is_refused() ? NULL : counted(__real_malloc(size));
}

void *__wrap_realloc(void *block, size_t size)
{
    if (is_refused())
        return NULL;
    return block != NULL ? __real_realloc(block, size) : counted(__real_realloc(block, size));
}

void __wrap_free(void *block)
{
    blocks -= block != NULL;
    __real_free(block);
}

static const char first[] =
    "file a.proto\npackage p.q\nmessage M\nfield f 1 optional string ~ ~\ndefault seven\n"
    "extensions 100 200\nend\nextend x 100 optional int32 ~ .p.q.M\nenum E\nvalue A 0\nend\n"
    "service R\nmethod U .p.q.M .p.q.M\nend\nend\n";
static const char second[] =
    "file b.proto\npackage p.q\nimport a.proto\nmessage N\nfield f 1 optional message .p.q.M ~\n"
    "end\nextend y 101 optional enum .p.q.E .p.q.M\nservice S\nmethod T .p.q.M .p.q.N\nend\nend\n";
static const char broken[] =
    "file c.proto\nmessage N\nfield f 1 optional message .none ~\nfield g 1 optional int32 ~ ~\n"
    "end\nat 4,0,2,0,6 7,8,9\nend\n";

/* More requests than a call makes. */
enum { MOST_REQUESTS = 10000 };

static uint8_t set[4096], file[4096];
static size_t set_len, file_len;

static int add(protolink_pool *pool, const char *script)
{
    return protolink_pool_add_script(pool, (const uint8_t *)script, strlen(script));
}

static int add_second(protolink_pool *pool)
{
    return add(pool, second);
}

static int add_set(protolink_pool *pool)
{
    return protolink_pool_add_set(pool, set, set_len);
}

static int add_file(protolink_pool *pool)
{
    return protolink_pool_add_file(pool, file, file_len);
}

static int add_broken(protolink_pool *pool)
{
    return add(pool, broken);
}

static int add_unequal(protolink_pool *pool)
{
    return add(pool, "file d.proto\nend\nfile d.proto\nend\nfile d.proto\npackage d\nend\n");
}

static int add_nonsense(protolink_pool *pool)
{
    return add(pool, "file d.proto\nnonsense\n");
}

static int add_no_set(protolink_pool *pool)
{
    return protolink_pool_add_set(pool, (const uint8_t *)"\x0a\x05", 2);
}

static int linked(protolink_pool *pool)
{
    uint8_t buffer[4096];
    size_t length;
    return protolink_pool_linked(pool, buffer, sizeof buffer, &length);
}

static int linked_file(protolink_pool *pool)
{
    uint8_t buffer[4096];
    size_t length;
    return protolink_pool_linked_file(pool, 0, buffer, sizeof buffer, &length);
}

static int default_value(protolink_pool *pool)
{
    protolink_item item = { PROTOLINK_FIELD, 0, 0 };
    uint8_t buffer[64];
    size_t length;
    return protolink_default(pool, &item, buffer, sizeof buffer, &length);
}

static int file_items(protolink_pool *pool)
{
    uint32_t list[4];
    size_t length;
    return protolink_file_items(pool, 0, PROTOLINK_MESSAGE, list, 4, &length);
}

static int message_items(protolink_pool *pool)
{
    uint32_t list[4];
    size_t length;
    return protolink_message_items(pool, 0, PROTOLINK_ENUM, list, 4, &length);
}

static int method_by_name(protolink_pool *pool)
{
    uint32_t position;
    return protolink_method_by_name(pool, 0, (const uint8_t *)"U", 1, &position);
}

/* What an empty pool changes of the pool, in both directions. */
static int changes(protolink_pool *pool)
{
    protolink_pool none = PROTOLINK_POOL_EMPTY;
    static uint8_t buffer[16384];
    size_t length;
    return protolink_pool_changes(
        &none, pool, PROTOLINK_LEVEL_SOURCE, PROTOLINK_COMPATIBILITY_FULL, buffer, sizeof buffer,
        &length);
}

static int has(protolink_pool *pool, const char *name)
{
    protolink_item item;
    uint32_t at;
    return protolink_pool_find(pool, (const uint8_t *)name, strlen(name), &item, &at)
        == PROTOLINK_DONE;
}

/* Whether what a copy is made into is right: empty where memory was refused, and else with what the
   pool has. */
static int clone_into(protolink_pool *pool, protolink_pool *copy)
{
    int status = protolink_pool_clone(pool, copy);
    int is_right = status == PROTOLINK_DONE ? has(copy, "p.q.M") : copy->at == NULL;
    protolink_pool_clear(copy);
    return is_right ? status : -1;
}

static int clone(protolink_pool *pool)
{
    protolink_pool copy = PROTOLINK_POOL_EMPTY;
    return clone_into(pool, &copy);
}

/* A copy made into a pool that has files, for which no request is refused. */
static int clone_into_a_full_one(protolink_pool *pool)
{
    protolink_pool copy = PROTOLINK_POOL_EMPTY;
    long request = wanted, made = requests;
    wanted = 0;
    if (add(&copy, first) != PROTOLINK_DONE)
        return -1;
    wanted = request;
    requests = made;
    return clone_into(pool, &copy);
}

/* The limit of faults of a new pool, for which memory is wanted. */
static int limit_faults(protolink_pool *pool)
{
    protolink_pool limited = PROTOLINK_POOL_EMPTY;
    int status = protolink_pool_limit_faults(&limited, 1);
    int is_right = (status == PROTOLINK_DONE) == (limited.at != NULL);
    protolink_pool_clear(&limited);
    (void)pool;
    return is_right ? status : -1;
}

/* The calls, how each ends where nothing is refused, and whether it links a file. */
static const struct trial {
    const char *name;
    int (*call)(protolink_pool *pool);
    int status;
    int links;
} trials[] = {
    { "add_set", add_set, PROTOLINK_DONE, 1 },
    { "add_file", add_file, PROTOLINK_DONE, 1 },
    { "add_script", add_second, PROTOLINK_DONE, 1 },
    { "add_script, refused", add_broken, PROTOLINK_REFUSED, 0 },
    { "add_script, unequal files", add_unequal, PROTOLINK_REFUSED, 0 },
    { "add_script, a fault", add_nonsense, PROTOLINK_FAULT, 0 },
    { "add_set, a fault", add_no_set, PROTOLINK_FAULT, 0 },
    { "linked", linked, PROTOLINK_DONE, 0 },
    { "linked_file", linked_file, PROTOLINK_DONE, 0 },
    { "default", default_value, PROTOLINK_DONE, 0 },
    { "file_items", file_items, PROTOLINK_DONE, 0 },
    { "message_items", message_items, PROTOLINK_DONE, 0 },
    { "method_by_name", method_by_name, PROTOLINK_DONE, 0 },
    { "changes", changes, PROTOLINK_DONE, 0 },
    { "clone", clone, PROTOLINK_DONE, 0 },
    { "clone into a full pool", clone_into_a_full_one, PROTOLINK_DONE, 0 },
    { "limit_faults", limit_faults, PROTOLINK_DONE, 0 },
};

/* Whether a pool has what it must: the first file, and the second where that is linked. */
static int is_whole(protolink_pool *pool, int has_second)
{
    protolink_counts counts;
    protolink_pool_counts(pool, &counts);
    return counts.files == 1u + has_second && counts.messages == 1u + has_second
        && counts.extensions == 1u + has_second
        && has(pool, "p.q.M.f") && has(pool, "p.q.N") == has_second;
}

/* One call with one request refused: whether the pool is what it must be, and nothing is left. */
static int is_right(const struct trial *trial, long request)
{
    protolink_pool pool = PROTOLINK_POOL_EMPTY;
    long before = blocks;
    int status, right;
    refused = 0;
    if (add(&pool, first) != PROTOLINK_DONE) {
        protolink_pool_clear(&pool);
        return 0;
    }
    requests = 0;
    wanted = request;
    status = trial->call(&pool);
    wanted = 0;
    right = status == trial->status || (refused > 0 && status == PROTOLINK_NO_MEMORY);
    right = right && is_whole(&pool, trial->links && status == PROTOLINK_DONE);
    right = right && (status != trial->status || trial->call(&pool) == trial->status);
    protolink_pool_clear(&pool);
    return right && blocks == before;
}

/* Whether calls on an empty pool find nothing and ask for no memory, but for those that add
   files. */
static int asks_for_nothing(void)
{
    protolink_pool pool = PROTOLINK_POOL_EMPTY, copy = PROTOLINK_POOL_EMPTY;
    protolink_message_info message;
    protolink_counts counts;
    uint8_t text[8];
    size_t length = 1;
    uint32_t at;
    int right;
    requests = 0;
    right = protolink_pool_report(&pool, text, 8, &length) == PROTOLINK_DONE && length == 0;
    right &= protolink_pool_report_json(&pool, text, 8, &length) == PROTOLINK_DONE && length == 0;
    right &= protolink_pool_linked(&pool, text, 8, &length) == PROTOLINK_DONE && length == 0;
    right &= linked_file(&pool) == PROTOLINK_NOT_FOUND && !has(&pool, "p.q.M");
    right &= default_value(&pool) == PROTOLINK_NOT_FOUND;
    right &= protolink_message(&pool, 0, &message) == PROTOLINK_NOT_FOUND;
    right &= protolink_field_by_number(&pool, 0, 1, &at) == PROTOLINK_NOT_FOUND;
    right &= protolink_pool_extension(&pool, 0, 1, &at) == PROTOLINK_NOT_FOUND;
    protolink_pool_counts(&pool, &counts);
    right &= counts.files == 0 && protolink_pool_clone(&pool, &copy) == PROTOLINK_DONE;
    protolink_pool_clear(&pool);
    return right && pool.at == NULL && copy.at == NULL && requests == 0;
}

/* How many requests the readers make of a pool that has files: a number below 0 where one of them
   answers otherwise than it must. */
static long reader_requests(void)
{
    protolink_pool pool = PROTOLINK_POOL_EMPTY;
    int status = add(&pool, read_first) | add(&pool, read_second);
    long made;
    requests = 0;
    if (status == PROTOLINK_DONE)
        status = read_all(&pool);
    made = requests;
    protolink_pool_clear(&pool);
    return status == 0 ? made : -status;
}

/* The linked second file alone, and the set of both. */
static int make_inputs(void)
{
    protolink_pool pool = PROTOLINK_POOL_EMPTY;
    int is_made = add(&pool, first) == PROTOLINK_DONE && add(&pool, second) == PROTOLINK_DONE
        && protolink_pool_linked(&pool, set, sizeof set, &set_len) == PROTOLINK_DONE
        && protolink_pool_linked_file(&pool, 1, file, sizeof file, &file_len) == PROTOLINK_DONE;
    protolink_pool_clear(&pool);
    return is_made;
}

int main(void)
{
    int status = make_inputs() ? 0 : 1;
    for (size_t n = 0; status == 0 && n < sizeof trials / sizeof *trials; n++) {
        long count = 0, wrong = 0;
        do {
            count++;
            wrong += !is_right(&trials[n], count);
        } while (refused > 0 && count < MOST_REQUESTS);
        wrong += refused > 0;
        printf("%s: %ld requests, %ld wrong\n", trials[n].name, count - 1, wrong);
        status = wrong > 0 ? 1 : status;
    }
    int wrong = !asks_for_nothing();
    printf("an empty pool: %ld requests, %d wrong\n", requests, wrong);
    long made = reader_requests();
    printf("readers of a pool: %ld requests, %d wrong\n", made, made != 0);
    return status || wrong || made != 0;
}
