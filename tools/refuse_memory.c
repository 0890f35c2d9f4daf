/* Takes the place of malloc, calloc, realloc and free in a program that is linked dynamically, and
   refuses one of its requests, or that one and all behind it. tools/refuse_memory.py builds and
   loads it, and says by the environment what it is to do:

     REFUSE_PROGRAM  the program, as it is called; in any other that is started on the way, as one that
                     starts it, nothing is refused
     REFUSE_REQUEST  the number of the request that is refused, from 1; 0 refuses none
     REFUSE_BEHIND   1 where those behind it are refused too
     REFUSE_RISING   1 where the count begins anew at each first mark, and with it the number of the
                     request that is refused rises by one; what has room enough is then not refused
     REFUSE_MARK     the size of a request that is a mark: the first begins the count, and is not
                     counted, and the second ends it; 0 counts from the beginning of the program
     REFUSE_TOLD     the file to which the counts are written at the end: requests; those of them
                     that were refused; those refused for a block that had room enough already, as
                     when it is to shrink; and blocks that were given and not taken back */
#define _GNU_SOURCE
#include <errno.h>
#include <malloc.h>
#include <stdio.h>
#include <stdlib.h>
#include <string.h>

extern void *__libc_malloc(size_t size);
extern void *__libc_calloc(size_t count, size_t size);
extern void *__libc_realloc(void *block, size_t size);
extern void __libc_free(void *block);

static size_t mark, wanted, behind, rising, requests, refused, roomy, blocks;
static int is_meant, is_counting;

static size_t number(const char *name)
{
    const char *text = getenv(name);
    return text ? strtoul(text, NULL, 10) : 0;
}

__attribute__((constructor)) static void begin(void)
{
    const char *program = getenv("REFUSE_PROGRAM");
    is_meant = program && strcmp(program, program_invocation_name) == 0;
    mark = number("REFUSE_MARK");
    wanted = number("REFUSE_REQUEST");
    behind = number("REFUSE_BEHIND");
    rising = number("REFUSE_RISING");
    is_counting = is_meant && mark == 0;
    blocks = 0;
}

/* Counts a request, and answers whether it is refused. */
static int is_refused(size_t size)
{
    if (is_meant && mark != 0 && size == mark) {
        is_counting = !is_counting;
        if (is_counting && rising) {
            requests = 0;
            wanted++;
        }
        return 0;
    }
    if (!is_counting)
        return 0;
    requests++;
    if (wanted == 0 || requests < wanted || (requests > wanted && !behind))
        return 0;
    refused++;
    return 1;
}

static void *counted(void *block)
{
    blocks += block != NULL;
    return block;
}

void *malloc(size_t size)
{
    return is_refused(size) ? NULL : counted(__libc_malloc(size));
}

void *calloc(size_t count, size_t size)
{
    return is_refused(count * size) ? NULL : counted(__libc_calloc(count, size));
}

void *realloc(void *block, size_t size)
{
    int has_room = block != NULL && size <= malloc_usable_size(block);
    if (!(rising && has_room) && is_refused(size)) {
        roomy += has_room;
        return NULL;
    }
    return block ? __libc_realloc(block, size) : counted(__libc_realloc(NULL, size));
}

void free(void *block)
{
    blocks -= block != NULL;
    __libc_free(block);
}

__attribute__((destructor)) static void end(void)
{
    const char *name = getenv("REFUSE_TOLD");
    size_t left = blocks;
    is_counting = 0;
    FILE *told = is_meant && name ? fopen(name, "w") : NULL;
    if (!told)
        return;
    fprintf(told, "%zu %zu %zu %zu\n", requests, refused, roomy, left);
    fclose(told);
}
