/* Links descriptor sets as one pool, and prints the verdict.
 *
 *     cc check_set.c $(pkg-config --cflags --libs protolink) -o check_set
 *     protoc --include_imports -o set.pb shop/order.proto && ./check_set set.pb
 *
 * Exit status: 0 linked, 1 refused, 2 no verdict, 3 memory was refused, 4 the output could not be
 * written. */
#include <protolink.h>

#include <errno.h>
#include <stdio.h>
#include <stdlib.h>

/* The bytes of a file, which the caller frees; or NULL, and errno tells why. */
static uint8_t *read_whole(const char *name, size_t *len)
{
    FILE *file = fopen(name, "rb");
    uint8_t *bytes = NULL, *more;
    size_t room = 1 << 15;
    int why;
    if (file == NULL)
        return NULL;
    *len = 0;
    do {
        room *= 2;
        more = realloc(bytes, room);
        if (more == NULL)
            break;
        bytes = more;
        *len += fread(bytes + *len, 1, room - *len, file);
    } while (*len == room);
    why = errno;
    if (more == NULL || ferror(file)) {
        free(bytes);
        bytes = NULL;
    }
    fclose(file);
    errno = why;
    return bytes;
}

static int memory_was_refused(void)
{
    fputs("memory was refused\n", stderr);
    return 3;
}

/* Prints the report of the last call, which tells why nothing was linked, and answers the status,
 * or that of refused memory. */
static int print_report(protolink_pool *pool, FILE *to, int status)
{
    uint8_t none = 0;
    size_t length = 0;
    uint8_t *text;
    protolink_pool_report(pool, &none, 0, &length);
    text = malloc(length + 1);
    if (text == NULL)
        return memory_was_refused();
    if (protolink_pool_report(pool, text, length, &length) == PROTOLINK_DONE)
        fwrite(text, 1, length, to);
    free(text);
    return status;
}

/* Prints a name on a line. A stranger's name may hold what a terminal obeys, so each byte that is no
 * letter, digit or sign of ASCII is printed as its number. */
static void print_name(const uint8_t *name, size_t len)
{
    size_t at;
    for (at = 0; at < len; at++)
        printf(name[at] > 32 && name[at] < 127 ? "%c" : "\\x%02x", name[at]);
    putchar('\n');
}

/* Prints the full names of all messages. */
static void print_messages(protolink_pool *pool)
{
    protolink_counts counts;
    protolink_item item = { PROTOLINK_MESSAGE, 0, 0 };
    protolink_pool_counts(pool, &counts);
    for (item.index = 0; item.index < counts.messages; item.index++) {
        uint8_t name[512];
        size_t length;
        if (protolink_full_name(pool, &item, name, sizeof name, &length) == PROTOLINK_DONE)
            print_name(name, length);
        else
            printf("(a name of %lu bytes)\n", (unsigned long)length);
    }
}

/* Links a set, and answers the exit status. */
static int add(protolink_pool *pool, const char *name)
{
    size_t len;
    uint8_t *bytes = read_whole(name, &len);
    protolink_status status;
    if (bytes == NULL) {
        int is_memory = errno == ENOMEM;
        perror(name);
        return is_memory ? 3 : 2;
    }
    status = protolink_pool_add_set(pool, bytes, len);
    free(bytes);
    switch (status) {
    case PROTOLINK_DONE:
        return 0;
    case PROTOLINK_NO_MEMORY:
        return memory_was_refused();
    case PROTOLINK_FAULT:
        return print_report(pool, stderr, 2);
    default:
        return print_report(pool, stdout, 1);
    }
}

int main(int argc, char **argv)
{
    protolink_pool pool = PROTOLINK_POOL_EMPTY;
    int status = 0;
    if (argc < 2) {
        fputs("usage: check_set SET..\n", stderr);
        return 2;
    }
    for (int n = 1; n < argc && status == 0; n++)
        status = add(&pool, argv[n]);
    if (status == 0)
        print_messages(&pool);
    protolink_pool_clear(&pool);
    if (fflush(stdout) != 0 || ferror(stdout)) {
        perror("the standard output");
        return 4;
    }
    return status;
}
