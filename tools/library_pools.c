/* Makes pools, asks them and frees them, as many as its argument says, for valgrind to watch.
   tools/library builds and runs it. Exit status: 0, or the line at which an answer was wrong. */
#include "library_readers.h"

#include <stdlib.h>

static const char refused[] = "file c.proto\nmessage N\nend\nmessage N\nend\nend\n";

/* Behind the first file: another one of its name, and a file whose faults its own records place. */
static const char unread[] =
    "file a.proto\npackage p.q\npublic 7\nmessage X\nend\nmessage M\nend\nend\n";
static const char bad_index[] = "file d.proto\npublic 5\nend\n";
static const char second_holder[] = "file e.proto\npackage p.q\nmessage M\nend\nend\n";

static int add(protolink_pool *pool, const char *script)
{
    return protolink_pool_add_script(pool, as_bytes(script), strlen(script));
}

/* What the pool has, by each call that reads it. */
static int look_up(const protolink_pool *pool)
{
    protolink_item item = { PROTOLINK_FIELD, 0, 0 };
    uint8_t text[64];
    uint32_t list[4];
    size_t length;
    WANT(protolink_full_name(pool, &item, text, 6, &length) == PROTOLINK_SHORT && length == 7);
    WANT(protolink_default(pool, &item, text, 64, &length) == PROTOLINK_DONE && length == 1);
    WANT(protolink_file_items(pool, 0, PROTOLINK_MESSAGE, list, 4, &length) == PROTOLINK_DONE);
    WANT(length == 2 && list[0] == 0 && list[1] == 1);
    WANT(protolink_message_items(pool, 0, PROTOLINK_ENUM, list, 4, &length) == PROTOLINK_DONE);
    WANT(length == 0);
    WANT(protolink_method_by_name(pool, 0, as_bytes("T"), 1, list) == PROTOLINK_DONE);
    WANT(list[0] == 0);
    return read_all(pool);
}

/* Whether the report of the last call, as an object of JSON, has a part. */
static int is_told(const protolink_pool *pool, const char *part)
{
    static char text[16384];
    uint8_t *front = (uint8_t *)text;
    size_t length;
    if (protolink_pool_report_json(pool, front, sizeof text - 1, &length) != PROTOLINK_DONE)
        return 0;
    text[length] = 0;
    return strstr(text, part) != NULL;
}

/* Two files behind one another, the one that imports first, as one batch; and one with a fault. */
static int add_both(const protolink_pool *pool)
{
    protolink_pool other = PROTOLINK_POOL_EMPTY;
    uint8_t bytes[2048];
    size_t lens[2], room = sizeof bytes;
    int status;
    WANT(protolink_pool_linked_file(pool, 1, bytes, room, &lens[0]) == PROTOLINK_DONE);
    room -= lens[0];
    WANT(protolink_pool_linked_file(pool, 0, bytes + lens[0], room, &lens[1]) == PROTOLINK_DONE);
    WANT(protolink_pool_add_files(&other, bytes, lens[0] + lens[1], lens, 2) == PROTOLINK_DONE);
    status = is_told(&other, "error") ? __LINE__ % 256 : 0;
    lens[0]--;
    WANT(protolink_pool_add_files(&other, bytes, lens[0], lens, 1) == PROTOLINK_FAULT);
    WANT(is_told(&other, "\"error\":\"file 1: byte "));
    protolink_pool_clear(&other);
    return status;
}

static int is_added(const protolink_pool *pool, uint64_t files, uint64_t passed, uint64_t differing)
{
    protolink_added added;
    protolink_pool_added(pool, &added);
    return added.files == files && added.passed_over == passed && added.differing == differing;
}

/* What became of files: of those that were linked, and of those that the pool had, of which one may
   differ; nothing where files were refused, and of a copy. */
static int tell_what_became(const protolink_pool *pool)
{
    protolink_pool other = PROTOLINK_POOL_EMPTY, copy = PROTOLINK_POOL_EMPTY;
    uint8_t set[1024];
    size_t length;
    WANT(is_added(&other, 0, 0, 0));
    WANT(protolink_pool_linked(pool, set, sizeof set, &length) == PROTOLINK_DONE);
    WANT(protolink_pool_add_set(&other, set, length) == PROTOLINK_DONE);
    WANT(is_added(&other, 2, 0, 0));
    WANT(protolink_pool_clone(&other, &copy) == PROTOLINK_DONE && is_added(&copy, 0, 0, 0));
    protolink_pool_clear(&copy);
    WANT(protolink_pool_add_set(&other, set, length) == PROTOLINK_DONE);
    WANT(is_added(&other, 0, 2, 0));
    WANT(add(&other, "file b.proto\nimport a.proto\nend\nfile f.proto\nend\n") == PROTOLINK_DONE);
    WANT(is_added(&other, 1, 1, 1));
    WANT(add(&other, refused) == PROTOLINK_REFUSED && is_added(&other, 0, 0, 0));
    protolink_pool_clear(&other);
    WANT(protolink_pool_add_set(&other, NULL, 0) == PROTOLINK_DONE && is_added(&other, 0, 0, 0));
    protolink_pool_clear(&other);
    return 0;
}

/* A file twice counts once; two of one name that differ are told as one fault, and so is a third. */
static int add_twice(void)
{
    protolink_pool pool = PROTOLINK_POOL_EMPTY;
    static const char twice[] =
        "file t.proto\nmessage M\nend\nat 4,0 1,2,3\nend\nfile u.proto\nend\n"
        "file t.proto\nmessage M\nend\nend\n";
    char thrice[512];
    strcat(strcpy(thrice, twice), "file t.proto\nmessage N\nend\nend\n");
    WANT(add(&pool, thrice) == PROTOLINK_REFUSED && is_added(&pool, 0, 0, 0));
    WANT(is_told(&pool, "\"code\":\"UnequalFile\",\"message\":\"file 1 and file 4 have unequal "
                        "copies: message 1 'M'\""));
    WANT(is_told(&pool, "\"faults\":[{") && is_told(&pool, "\"more\":0,\"error\":null"));
    WANT(!is_told(&pool, "Duplicate"));
    WANT(add(&pool, twice) == PROTOLINK_DONE && is_added(&pool, 2, 0, 0));
    WANT(add(&pool, twice) == PROTOLINK_DONE && is_added(&pool, 0, 2, 0));
    protolink_pool_clear(&pool);
    return 0;
}

/* How two pools are to be compared. */
typedef struct asked {
    uint32_t level;
    uint32_t compatibility;
} asked;

static const asked wire = { PROTOLINK_LEVEL_WIRE, PROTOLINK_COMPATIBILITY_BACKWARD };
static const asked json = { PROTOLINK_LEVEL_JSON, PROTOLINK_COMPATIBILITY_BACKWARD };
static const asked source = { PROTOLINK_LEVEL_SOURCE, PROTOLINK_COMPATIBILITY_BACKWARD };
static const asked forward = { PROTOLINK_LEVEL_WIRE, PROTOLINK_COMPATIBILITY_FORWARD };
static const asked full = { PROTOLINK_LEVEL_WIRE, PROTOLINK_COMPATIBILITY_FULL };

/* What a pool changes of an older one: a part of the object of JSON. */
static int is_changed(
    const protolink_pool *pool, const protolink_pool *older, asked by, const char *part)
{
    static char text[16384];
    size_t length, needed;
    uint8_t *front = (uint8_t *)text;
    protolink_status status =
        protolink_pool_changes(pool, older, by.level, by.compatibility, NULL, 0, &needed);
    if (status != PROTOLINK_SHORT || needed >= sizeof text)
        return 0;
    status = protolink_pool_changes(
        pool, older, by.level, by.compatibility, front, needed, &length);
    if (status != PROTOLINK_DONE || length != needed)
        return 0;
    text[length] = 0;
    return strstr(text, part) != NULL;
}

static const char older[] =
    "file o.proto\npackage o\nmessage M\nfield f 1 optional int64 ~ ~\njson f\nend\nend\n";
static const char newer[] =
    "file o.proto\npackage o\nmessage M\nfield g 1 optional int32 ~ ~\njson g\nend\nend\n";

static int tell_changes(void)
{
    protolink_pool old_pool = PROTOLINK_POOL_EMPTY, new_pool = PROTOLINK_POOL_EMPTY;
    size_t length = 7;
    WANT(add(&old_pool, older) == PROTOLINK_DONE && add(&new_pool, newer) == PROTOLINK_DONE);
    WANT(is_changed(&new_pool, &old_pool, wire, "\"count\":1,\"more\":0"));
    WANT(is_changed(&new_pool, &old_pool, wire, "'o.M.g' (1): int64 became int32"));
    WANT(is_changed(&new_pool, &old_pool, wire, "\"against\":\"the older pool\""));
    WANT(is_changed(&new_pool, &old_pool, json, "\"count\":2,\"more\":0"));
    WANT(is_changed(&old_pool, &new_pool, wire, "\"changes\":[],\"verdict\""));
    WANT(is_changed(&new_pool, &new_pool, source, "\"changes\":[],\"verdict\""));
    WANT(protolink_pool_limit_faults(&new_pool, 1) == PROTOLINK_DONE);
    WANT(is_changed(&new_pool, &old_pool, json, "\"count\":2,\"more\":1"));
    WANT(protolink_pool_changes(&new_pool, &old_pool, 3, 0, NULL, 0, &length)
         == PROTOLINK_NOT_FOUND);
    WANT(protolink_pool_changes(&new_pool, &old_pool, 0, 3, NULL, 0, &length)
         == PROTOLINK_NOT_FOUND);
    WANT(length == 7);
    protolink_pool_clear(&new_pool);
    WANT(is_changed(&new_pool, &old_pool, wire, "message-removed"));
    WANT(is_changed(&new_pool, &old_pool, source, "file-removed"));
    protolink_pool_clear(&old_pool);
    return 0;
}

static const char one_field[] =
    "file m.proto\nmessage M\nfield a 1 optional int32 ~ ~\nend\nend\n";
static const char field_added[] =
    "file m.proto\nmessage M\nfield a 1 optional int32 ~ ~\nfield b 2 optional int32 ~ ~\n"
    "end\nend\n";
static const char other_kind[] =
    "file m.proto\nmessage M\nfield a 1 optional uint32 ~ ~\nend\nend\n";

/* A field that is added changes nothing in either direction; one of another kind does in both. */
static int tell_directions(void)
{
    protolink_pool old_pool = PROTOLINK_POOL_EMPTY, new_pool = PROTOLINK_POOL_EMPTY;
    WANT(add(&old_pool, one_field) == PROTOLINK_DONE);
    WANT(add(&new_pool, field_added) == PROTOLINK_DONE);
    WANT(is_changed(&new_pool, &old_pool, forward, "\"direction\":\"forward\",\"count\":0"));
    WANT(is_changed(&new_pool, &old_pool, forward, "\"changes\":[],\"verdict\""));
    WANT(is_changed(&new_pool, &old_pool, full, "\"direction\":\"backward\",\"count\":0"));
    WANT(is_changed(&new_pool, &old_pool, full, "\"direction\":\"forward\",\"count\":0"));
    WANT(is_changed(&new_pool, &old_pool, full, "\"changes\":[],\"verdict\""));
    WANT(is_changed(&old_pool, &new_pool, wire, "number-free"));
    protolink_pool_clear(&new_pool);
    WANT(add(&new_pool, other_kind) == PROTOLINK_DONE);
    WANT(is_changed(&new_pool, &old_pool, forward, "'M.a' (1): int32 became uint32"));
    WANT(!is_changed(&new_pool, &old_pool, forward, "backward"));
    WANT(is_changed(&new_pool, &old_pool, full, "[{\"level\":\"wire\",\"direction\":\"backward\""));
    WANT(is_changed(&new_pool, &old_pool, full, ",{\"level\":\"wire\",\"direction\":\"forward\""));
    protolink_pool_clear(&new_pool);
    protolink_pool_clear(&old_pool);
    return 0;
}

/* Null pointers beside lengths of 0: nothing to read, and no room. */
static int pass_null(const protolink_pool *pool)
{
    protolink_pool other = PROTOLINK_POOL_EMPTY;
    protolink_item item = { PROTOLINK_FIELD, 0, 0 };
    uint32_t at;
    size_t length;
    WANT(protolink_pool_add_set(&other, NULL, 0) == PROTOLINK_DONE);
    WANT(protolink_pool_add_script(&other, NULL, 0) == PROTOLINK_DONE);
    WANT(protolink_pool_add_files(&other, NULL, 0, NULL, 0) == PROTOLINK_DONE);
    WANT(protolink_pool_linked(&other, NULL, 0, &length) == PROTOLINK_DONE && length == 0);
    protolink_pool_clear(&other);
    WANT(protolink_pool_find(pool, NULL, 0, &item, &at) == PROTOLINK_NOT_FOUND);
    WANT(protolink_full_name(pool, &item, NULL, 0, &length) == PROTOLINK_SHORT && length == 7);
    WANT(protolink_path(pool, &item, NULL, 0, &length) == PROTOLINK_SHORT && length == 4);
    WANT(protolink_file_items(pool, 0, PROTOLINK_MESSAGE, NULL, 0, &length) == PROTOLINK_SHORT);
    return length == 2 ? 0 : __LINE__ % 256;
}

/* The linked set of one pool, taken in by another. */
static int hand_over(const protolink_pool *pool)
{
    protolink_pool other = PROTOLINK_POOL_EMPTY;
    uint8_t set[1024];
    size_t length;
    int status;
    WANT(protolink_pool_linked(pool, set, sizeof set, &length) == PROTOLINK_DONE);
    WANT(protolink_pool_add_set(&other, set, length) == PROTOLINK_DONE);
    WANT(protolink_pool_linked_file(pool, 0, set, sizeof set, &length) == PROTOLINK_DONE);
    WANT(protolink_pool_add_file(&other, set, length) == PROTOLINK_DONE);
    status = look_up(&other);
    protolink_pool_clear(&other);
    return status;
}

/* A file whose name the pool has is passed over: no fault is told by its record. */
static int tell_of_new_files(protolink_pool *pool)
{
    char both[512];
    strcat(strcpy(both, unread), bad_index);
    WANT(add(pool, both) == PROTOLINK_REFUSED);
    WANT(is_told(pool, "\"code\":\"InvalidImportIndex\""));
    WANT(is_told(pool, "\"file\":\"d.proto\",\"line\":null,\"column\":null,\"path\":[10,0]"));
    WANT(!is_told(pool, "a.proto"));
    strcat(strcpy(both, unread), second_holder);
    WANT(add(pool, both) == PROTOLINK_REFUSED);
    WANT(is_told(pool, "\"code\":\"DuplicateName\""));
    WANT(is_told(pool, "\"path\":[4,0,1],\"element\":\"p.q.M\",\"related\":[{\"file\":\"a.proto\","
                       "\"line\":null,\"column\":null,\"path\":[4,0,1],\"element\":\"p.q.M\""));
    return 0;
}

/* At most so many faults are told, of a copy too; the others are counted. */
static int limit_faults(protolink_pool *pool)
{
    protolink_pool copy = PROTOLINK_POOL_EMPTY;
    WANT(protolink_pool_limit_faults(pool, 0) == PROTOLINK_DONE);
    WANT(add(pool, refused) == PROTOLINK_REFUSED && is_told(pool, "\"faults\":[],\"more\":1,"));
    WANT(protolink_pool_clone(pool, &copy) == PROTOLINK_DONE);
    WANT(add(&copy, refused) == PROTOLINK_REFUSED && is_told(&copy, "\"faults\":[],\"more\":1,"));
    protolink_pool_clear(&copy);
    WANT(add(&copy, refused) == PROTOLINK_REFUSED && is_told(&copy, "\"more\":0,"));
    /* What a copy is made into is freed first. */
    WANT(protolink_pool_clone(pool, &copy) == PROTOLINK_DONE);
    protolink_pool_clear(&copy);
    WANT(protolink_pool_limit_faults(pool, 100) == PROTOLINK_DONE);
    return 0;
}

/* One pool from its first call to its last. */
static int one_pool(void)
{
    protolink_pool pool = PROTOLINK_POOL_EMPTY, copy = PROTOLINK_POOL_EMPTY;
    uint8_t text[4096];
    size_t length;
    int status;
    WANT(add(&pool, read_first) == PROTOLINK_DONE && add(&pool, read_second) == PROTOLINK_DONE);
    WANT(add(&pool, refused) == PROTOLINK_REFUSED);
    WANT(protolink_pool_report(&pool, text, sizeof text, &length) == PROTOLINK_DONE && length > 0);
    WANT(protolink_pool_report_json(&pool, text, sizeof text, &length) == PROTOLINK_DONE);
    status = tell_of_new_files(&pool);
    if (status == 0)
        status = limit_faults(&pool);
    if (status != 0)
        return status;
    WANT(add(&pool, "nonsense\n") == PROTOLINK_FAULT);
    WANT(add(&copy, "file d.proto\npackage d\nend\n") == PROTOLINK_DONE);
    WANT(protolink_pool_clone(&pool, &copy) == PROTOLINK_DONE);
    protolink_pool_clear(&pool);
    protolink_pool_clear(&pool);
    WANT(pool.at == NULL);
    status = look_up(&copy);
    if (status == 0)
        status = hand_over(&copy);
    if (status == 0)
        status = add_both(&copy);
    if (status == 0)
        status = tell_what_became(&copy);
    if (status == 0)
        status = tell_changes();
    if (status == 0)
        status = tell_directions();
    if (status == 0)
        status = add_twice();
    if (status == 0)
        status = pass_null(&copy);
    WANT(protolink_pool_clone(&copy, &copy) == PROTOLINK_DONE);
    if (status == 0)
        status = look_up(&copy);
    protolink_pool_clear(&copy);
    return status;
}

int main(int argc, char **argv)
{
    int count = argc > 1 ? atoi(argv[1]) : 1;
    int status = 0;
    for (int n = 0; n < count && status == 0; n++)
        status = one_pool();
    return status;
}
