/*
 * protolink.h: a linker of protobuf file descriptors whose promises are proved.
 *
 * A pool takes in descriptions of .proto files, as protoc and registries hand them out, gives every
 * declaration a full name and an index, finds what each type name means, and refuses what breaks
 * the rules of the language. It hands out the linked files as bytes, and their items by index and
 * by name.
 *
 *     protolink_pool pool = PROTOLINK_POOL_EMPTY;
 *     if (protolink_pool_add_set(&pool, bytes, len) == PROTOLINK_DONE) {
 *         protolink_item item;
 *         uint32_t file;
 *         if (protolink_pool_find(&pool, name, name_len, &item, &file) == PROTOLINK_DONE) { .. }
 *     }
 *     protolink_pool_clear(&pool);
 *
 * WHAT IS PROVED. Of each call, what it answers and what it leaves, for all arguments that a caller
 * may pass. No call aborts, prints, waits, starts a thread, or keeps anything but what its pool
 * owns. Out of memory is a status. This header and the bindings over it are no part of the proofs.
 *
 * WHAT A CALLER OWES. Nothing checks these:
 *
 *   - No pointer is null, unless the length beside it is 0. Each points to as much memory as the
 *     length beside it says, or to one value of its type, which lives through the call.
 *   - What a call writes (the pool, a buffer, a value) overlaps nothing else that is passed to it.
 *   - A pool is PROTOLINK_POOL_EMPTY, all bytes zero, or what the library left there. It may be
 *     moved in memory. Of two copies of one only one may be passed to a call that changes it, and
 *     after that the other to none.
 *   - A call that adds files, sets the limit of faults or clears changes its pool, and so does
 *     protolink_pool_clone the pool that it makes a copy: no other call uses that pool meanwhile.
 *     All other calls look up. They take a const pool, and any number of them may use one pool at
 *     once. Different pools are independent.
 *   - A call that changes a pool and a call of another thread with the same pool are synchronized:
 *     by a lock, the start or the end of a thread, or a sequentially consistent atomic. A pool may
 *     be handed to another thread so.
 *   - No call is made from a signal handler, nor in the child of a fork of a process with threads.
 *   - malloc, realloc and free are of one allocator, and align as the C library's do.
 *   - There is stack enough: it grows with the nesting of messages (docs/inside/MEMORY.md).
 *
 * TEXTS are bytes of UTF-8 with a length, and have no zero at their end. A text, or bytes, that a
 * call hands out goes to a buffer of the caller. Such calls have three last parameters,
 *
 *     (.., uint8_t *buffer, size_t room, size_t *length)
 *
 * and answer
 *
 *     PROTOLINK_DONE   the text is at the front of the buffer, and *length is its length. What
 *                      follows it in the buffer is as it was.
 *     PROTOLINK_SHORT  the text is longer than `room`. The buffer is as it was, and *length is the
 *                      length that is needed. With a room of 0 a caller asks for it.
 *
 * or another status, after which the buffer and *length are as they were.
 *
 * NUMBERS. Indexes of files, messages, enums, services and extensions count from 0 in the order of
 * linking, and an item keeps its index for good. Fields and oneofs are named by the index of their
 * message and their position in it, values by their enum and their position, methods by their
 * service and their position. Positions count from 0 in the order of declaration. An index, a
 * position or a kind that a pool does not have is no fault of the caller: it is answered by
 * PROTOLINK_NOT_FOUND.
 *
 * This header is C99, and may be included from C++. The library is for Linux on x86-64. It needs
 * malloc, realloc, free, memcpy, memmove and memset of the C library, and nothing else.
 */
#ifndef PROTOLINK_H
#define PROTOLINK_H

#include <stddef.h>
#include <stdint.h>

#ifdef __cplusplus
extern "C" {
#endif

/*
 * The version of this header: a million for the first number, a thousand for the second, one for
 * the third. 0.3.0 is 3000.
 */
#define PROTOLINK_VERSION 3000

/*
 * A pool of linked files. All zero is an empty pool, which owns nothing. The pointer is the
 * library's.
 */
typedef struct protolink_pool {
    void *at;
} protolink_pool;

/* The value of an empty pool, as an initializer. */
#define PROTOLINK_POOL_EMPTY { NULL }

/* How a call ended: one of the statuses. */
typedef uint8_t protolink_status;

enum protolink_statuses {
    PROTOLINK_DONE = 0,      /* it did, or found, what was asked */
    PROTOLINK_REFUSED = 1,   /* the files break rules, which the reports show */
    PROTOLINK_FAULT = 2,     /* the bytes are not what they should be: the reports say where */
    PROTOLINK_NO_MEMORY = 3, /* memory was refused */
    PROTOLINK_SHORT = 4,     /* the buffer is too short: the call gives the length it needs */
    PROTOLINK_TOO_MANY = 5,  /* there is too much of a kind, which the reports name */
    PROTOLINK_NOT_FOUND = 6  /* the pool does not have it */
};

/* Where an index may be missing: none. No item has this index. */
#define PROTOLINK_NONE UINT32_MAX

/* What kind of thing an item is. */
enum protolink_kinds {
    PROTOLINK_PACKAGE = 0,
    PROTOLINK_MESSAGE = 1,
    PROTOLINK_FIELD = 2,
    PROTOLINK_ONEOF = 3,
    PROTOLINK_SERVICE = 4,
    PROTOLINK_METHOD = 5,
    PROTOLINK_ENUM = 6,
    PROTOLINK_ENUM_VALUE = 7,
    PROTOLINK_EXTENSION = 8
};

/*
 * An item of a pool. The index is that of the message, enum, service or extension; of a field or a
 * oneof it is its message's, of a method its service's, of a value its enum's, and the position is
 * then that in there. Of the others the position is 0, and calls do not look at it. Of a package
 * the index is PROTOLINK_NONE.
 */
typedef struct protolink_item {
    uint32_t kind;     /* PROTOLINK_PACKAGE to PROTOLINK_EXTENSION */
    uint32_t index;
    uint32_t position;
} protolink_item;

/* How much a pool has of each kind that has indexes: these are those below the count. */
typedef struct protolink_counts {
    uint32_t files;
    uint32_t messages;
    uint32_t enums;
    uint32_t services;
    uint32_t extensions;
} protolink_counts;

/* What became of the files of a call that linked some. */
typedef struct protolink_added {
    uint64_t files;       /* how many were linked: the pool lacked their names */
    uint64_t passed_over; /* how many were passed over: the pool had a file of their name */
    uint64_t differing;   /* how many of those differ from the pool's linked file */
} protolink_added;

/* At which level two pools are compared. Each level contains the ones before it. */
enum protolink_levels {
    PROTOLINK_LEVEL_WIRE = 0,  /* what is read otherwise of bytes, or in calls of services */
    PROTOLINK_LEVEL_JSON = 1,  /* also what is read otherwise of texts of JSON */
    PROTOLINK_LEVEL_SOURCE = 2 /* also what code that is made of the files has otherwise */
};

/* Which of two pools is to read what the other writes. */
enum protolink_compatibilities {
    PROTOLINK_COMPATIBILITY_BACKWARD = 0, /* the new one what the older one writes */
    PROTOLINK_COMPATIBILITY_FORWARD = 1,  /* the older one what the new one writes */
    PROTOLINK_COMPATIBILITY_FULL = 2      /* each what the other writes: both directions */
};

/* The version of the language: of a file. */
enum protolink_syntaxes {
    PROTOLINK_PROTO2 = 2,
    PROTOLINK_PROTO3 = 3
};

/* How often a field may be in a message: the numbers of FieldDescriptorProto.Label. */
enum protolink_cardinalities {
    PROTOLINK_OPTIONAL = 1,
    PROTOLINK_REQUIRED = 2,
    PROTOLINK_REPEATED = 3
};

/* The type of a field: the numbers of FieldDescriptorProto.Type. */
enum protolink_types {
    PROTOLINK_TYPE_DOUBLE = 1,
    PROTOLINK_TYPE_FLOAT = 2,
    PROTOLINK_TYPE_INT64 = 3,
    PROTOLINK_TYPE_UINT64 = 4,
    PROTOLINK_TYPE_INT32 = 5,
    PROTOLINK_TYPE_FIXED64 = 6,
    PROTOLINK_TYPE_FIXED32 = 7,
    PROTOLINK_TYPE_BOOL = 8,
    PROTOLINK_TYPE_STRING = 9,
    PROTOLINK_TYPE_GROUP = 10,
    PROTOLINK_TYPE_MESSAGE = 11,
    PROTOLINK_TYPE_BYTES = 12,
    PROTOLINK_TYPE_UINT32 = 13,
    PROTOLINK_TYPE_ENUM = 14,
    PROTOLINK_TYPE_SFIXED32 = 15,
    PROTOLINK_TYPE_SFIXED64 = 16,
    PROTOLINK_TYPE_SINT32 = 17,
    PROTOLINK_TYPE_SINT64 = 18
};

/* A file. */
typedef struct protolink_file_info {
    uint32_t syntax;         /* PROTOLINK_PROTO2 or PROTOLINK_PROTO3 */
    uint64_t imports;        /* how many files it imports */
    uint64_t public_imports; /* how many of these imports are public */
    uint64_t messages;       /* how many messages it has that are in no message */
    uint64_t enums;          /* how many enums it has that are in no message */
    uint64_t services;       /* how many services it has */
    uint64_t extensions;     /* how many extensions it has that are in no message */
    uint32_t is_deprecated;  /* 1 where its options say so, else 0 */
} protolink_file_info;

/* A message. */
typedef struct protolink_message_info {
    uint32_t file;              /* the index of its file */
    uint32_t parent;            /* the index of the message around it, or PROTOLINK_NONE */
    uint64_t fields;            /* how many fields it has */
    uint64_t oneofs;            /* how many oneofs it has, those of optional fields of proto3 too */
    uint64_t extensions;        /* how many extensions of the pool extend it */
    uint64_t nested_messages;   /* how many messages are in it, without those in one of these */
    uint64_t nested_enums;      /* how many enums are in it */
    uint64_t nested_extensions; /* how many extensions are in it, whatever they extend */
    uint64_t extension_ranges;  /* how many ranges of numbers it leaves to extensions */
    uint64_t reserved_ranges;   /* how many ranges of numbers it reserves */
    uint64_t reserved_names;    /* how many names it reserves */
    uint32_t map_key;           /* of the entry of a map the position of its key: the field with the
                                   number 1; else PROTOLINK_NONE */
    uint32_t map_value;         /* the same of its value, which has the number 2 */
    uint32_t is_map_entry;      /* 1 where its options say that it is the entry of a map, else 0 */
    uint32_t is_message_set;    /* 1 where its options say that it is a message set, else 0 */
    uint32_t is_deprecated;     /* 1 where its options say so, else 0 */
} protolink_message_info;

/* A range of numbers. Of a message `end` is the number after it, of an enum its last one. */
typedef struct protolink_range {
    int32_t start;
    int32_t end;
} protolink_range;

/* A field of a message. */
typedef struct protolink_field_info {
    uint32_t number;
    uint32_t cardinality;        /* PROTOLINK_OPTIONAL, .._REQUIRED, .._REPEATED */
    uint32_t kind;               /* its type: PROTOLINK_TYPE_DOUBLE to .._SINT64 */
    uint32_t type_index;         /* the index of the type's message or enum, or PROTOLINK_NONE */
    uint32_t oneof;              /* the position of its oneof in the message, or PROTOLINK_NONE */
    uint32_t is_packed;          /* 1 where its values are encoded as one run of bytes, else 0 */
    uint32_t supports_presence;  /* 1 where a message shows that it is set, else 0 */
    uint32_t has_default;        /* 1 where a default value was given, else 0 */
    uint32_t is_map;             /* 1 where it is repeated and its type is the entry of a map */
    uint32_t is_list;            /* 1 where it is repeated and no map, else 0 */
    uint32_t is_required;        /* 1 where it must be set, else 0 */
    uint32_t is_group;           /* 1 where its type is a group, else 0 */
    uint32_t is_proto3_optional; /* 1 where it is declared `optional` in proto3, else 0 */
    uint32_t is_deprecated;      /* 1 where its options say so, else 0 */
} protolink_field_info;

/* A oneof of a message. */
typedef struct protolink_oneof_info {
    uint64_t fields;       /* how many fields of the message are in it */
    uint32_t is_synthetic; /* 1 where its one field is declared `optional` in proto3, else 0 */
} protolink_oneof_info;

/* An enum. */
typedef struct protolink_enum_info {
    uint32_t file;            /* the index of its file */
    uint32_t parent;          /* the index of the message around it, or PROTOLINK_NONE */
    uint64_t values;          /* how many values it has */
    uint32_t allow_alias;     /* 1 where two values may have one number, else 0 */
    uint64_t reserved_ranges; /* how many ranges of numbers it reserves */
    uint64_t reserved_names;  /* how many names it reserves */
    uint32_t is_closed;       /* 1 where its file is not one of proto3: it has no other numbers */
    uint32_t is_deprecated;   /* 1 where its options say so, else 0 */
} protolink_enum_info;

/* A value of an enum. */
typedef struct protolink_enum_value_info {
    int32_t number;
    uint32_t is_deprecated; /* 1 where its options say so, else 0 */
} protolink_enum_value_info;

/* A service. */
typedef struct protolink_service_info {
    uint32_t file;          /* the index of its file */
    uint64_t methods;       /* how many methods it has */
    uint32_t is_deprecated; /* 1 where its options say so, else 0 */
} protolink_service_info;

/* A method of a service. */
typedef struct protolink_method_info {
    uint32_t input;            /* the index of the message that it takes */
    uint32_t output;           /* the index of the message that it gives */
    uint32_t client_streaming; /* 1 where it takes a stream of them, else 0 */
    uint32_t server_streaming; /* 1 where it gives a stream of them, else 0 */
    uint32_t is_deprecated;    /* 1 where its options say so, else 0 */
} protolink_method_info;

/* An extension: a field of a message that is not declared in it. */
typedef struct protolink_extension_info {
    uint32_t file;               /* the index of its file */
    uint32_t parent;             /* the index of the message around it, or PROTOLINK_NONE */
    uint32_t extendee;           /* the index of the message whose field it is */
    uint32_t number;
    uint32_t cardinality;        /* PROTOLINK_OPTIONAL, .._REQUIRED, .._REPEATED */
    uint32_t kind;               /* its type: PROTOLINK_TYPE_DOUBLE to .._SINT64 */
    uint32_t type_index;         /* the index of the type's message or enum, or PROTOLINK_NONE */
    uint32_t is_packed;          /* 1 where its values are encoded as one run of bytes, else 0 */
    uint32_t has_default;        /* 1 where a default value was given, else 0 */
    uint32_t supports_presence;  /* 1 where a message shows that it is set, else 0 */
    uint32_t is_map;             /* 1 where it is repeated and its type is the entry of a map */
    uint32_t is_list;            /* 1 where it is repeated and no map, else 0 */
    uint32_t is_group;           /* 1 where its type is a group, else 0 */
    uint32_t is_proto3_optional; /* 1 where it is declared `optional` in proto3, else 0 */
    uint32_t is_deprecated;      /* 1 where its options say so, else 0 */
} protolink_extension_info;

/*
 * THE LIBRARY'S VERSION, as PROTOLINK_VERSION is the header's.
 */
uint32_t protolink_version(void);

/*
 * LINK FILES. The bytes are
 *
 *   protolink_pool_add_set     a FileDescriptorSet, as `protoc --include_imports -o FILE` writes it
 *   protolink_pool_add_file    one FileDescriptorProto
 *   protolink_pool_add_files   several FileDescriptorProtos one after another, by their lengths:
 *                              `lens` has `count` of them; where these are more than the bytes, the
 *                              files end with the bytes
 *   protolink_pool_add_script  a script (docs/SCRIPT.md) that declares files; its commands are
 *                              passed over
 *
 * All their files are linked in one batch: those whose names the pool lacks; the others are passed
 * over. What they import must be in the pool or in the batch, in any order. Of files of one name
 * that are equal, apart from the places in the source that they have, one counts.
 *
 *   PROTOLINK_DONE       they are linked. A batch without new files leaves the pool as it was, and
 *                        so do the bytes of an empty set: protolink_pool_added shows both.
 *   PROTOLINK_REFUSED    the new files break rules of docs/RULES.md; or two files of one name
 *                        differ, and then each later one is a fault, and there is no other.
 *   PROTOLINK_FAULT      the bytes are no such set or file, or the script has a fault.
 *   PROTOLINK_TOO_MANY   there is too much of a kind, in the new files or together with the pool.
 *   PROTOLINK_NO_MEMORY  memory was refused.
 *
 * After any status but PROTOLINK_DONE the pool has what it had. The two reports of the pool are
 * those of the last of these calls.
 */
protolink_status protolink_pool_add_set(protolink_pool *pool, const uint8_t *bytes, size_t len);
protolink_status protolink_pool_add_file(protolink_pool *pool, const uint8_t *bytes, size_t len);
protolink_status protolink_pool_add_files(
    protolink_pool *pool, const uint8_t *bytes, size_t len, const size_t *lens, size_t count);
protolink_status protolink_pool_add_script(protolink_pool *pool, const uint8_t *script, size_t len);

/*
 * WHAT BECAME OF THE FILES of the last call that was to link some, where it answered
 * PROTOLINK_DONE; else all is 0. It is always done, and takes no memory.
 *
 * A file that is passed over differs where its record is not that of the pool's linked file, apart
 * from the places in the source that both have. So it does where a name of a type is written
 * otherwise than with a dot and its full name, as protoc writes it. A registry that takes a version
 * of a file into a pool which has another one sees it by `differing`, and by nothing else.
 */
void protolink_pool_added(protolink_pool *pool, protolink_added *added);

/*
 * THE REPORT of the last call that was to link files, in lines for people as docs/CHECK.md has
 * them, each ended by a line feed:
 *
 *   after PROTOLINK_REFUSED    the first faults, in order, at most as many as
 *                              protolink_pool_limit_faults has set: `FILE:LINE:COLUMN: TEXT` where
 *                              a place is known, with lines of notes after it. Lines and columns
 *                              count from 1. A line says how many more faults there are, if any,
 *                              and the last line how many in all.
 *   after PROTOLINK_FAULT      one line: the byte, or the line of the script, and what is wrong.
 *   after PROTOLINK_TOO_MANY   one line, which names the kind.
 *
 * After any other status, and of an empty pool, it is empty. The call takes no memory.
 *
 *   PROTOLINK_DONE, PROTOLINK_SHORT  as said under TEXTS.
 */
protolink_status protolink_pool_report(
    protolink_pool *pool, uint8_t *buffer, size_t room, size_t *length);

/*
 * THE SAME REPORT AS AN OBJECT OF JSON, on one line, with all members that docs/CHECK.md lists:
 * the verdict, the same faults as data and how many more there are, what there is too much of, why
 * bytes could not be read. It is empty where the report is empty. The call takes no memory.
 *
 *   PROTOLINK_DONE, PROTOLINK_SHORT  as said under TEXTS.
 */
protolink_status protolink_pool_report_json(
    protolink_pool *pool, uint8_t *buffer, size_t room, size_t *length);

/*
 * HOW MANY FAULTS THE REPORTS HAVE at most, of the calls from now on that link files: 100 where this
 * was never called. The reports that the pool has stay as they are. The limit is the
 * pool's: a copy of the pool has it too, and a pool that is cleared has 100 again.
 *
 *   PROTOLINK_DONE       it is set.
 *   PROTOLINK_NO_MEMORY  the pool was empty, and memory was refused. It is empty still.
 */
protolink_status protolink_pool_limit_faults(protolink_pool *pool, size_t most);

/*
 * ALL LINKED FILES, as the canonical encoding of one FileDescriptorSet, in the order of linking. In
 * them each type name that is resolved is a dot and the full name of its definition.
 *
 * Of a pool that protolink_pool_add_script has filled, the bytes have no options: a field that the
 * script calls packed, and an enum that it gives aliases, are written without them, and are read
 * otherwise or refused where the bytes are linked again. Messages may be nested 100 levels deep in
 * the bytes of a file as in those of a set, in which the file is a level itself: so a file that
 * protolink_pool_add_file has linked may make a set that protolink_pool_add_set refuses.
 *
 *   PROTOLINK_DONE, PROTOLINK_SHORT  as said under TEXTS. PROTOLINK_SHORT counts the bytes, and
 *                                    writes none.
 *   PROTOLINK_NO_MEMORY              memory was refused.
 */
protolink_status protolink_pool_linked(
    protolink_pool *pool, uint8_t *buffer, size_t room, size_t *length);

/*
 * ONE LINKED FILE, as the canonical encoding of its FileDescriptorProto.
 *
 *   PROTOLINK_DONE, PROTOLINK_SHORT  as said under TEXTS.
 *   PROTOLINK_NOT_FOUND              the pool has no file with this index.
 *   PROTOLINK_NO_MEMORY              memory was refused.
 */
protolink_status protolink_pool_linked_file(
    protolink_pool *pool, uint32_t file, uint8_t *buffer, size_t room, size_t *length);

/*
 * WHAT A FULL NAME MEANS. It may have one leading dot. Of a package, which several files may
 * declare, the file is the first that entered it.
 *
 *   PROTOLINK_DONE       *item is what it means, and *file the index of the file that declares it.
 *   PROTOLINK_NOT_FOUND  the pool has no such name, or the bytes are no text. Nothing is written.
 */
protolink_status protolink_pool_find(
    protolink_pool *pool, const uint8_t *name, size_t name_len, protolink_item *item,
    uint32_t *file);

/*
 * WHERE A FULL NAME IS DECLARED: the path in the record of its file, to the name itself, as
 * SourceCodeInfo of descriptor.proto writes paths: numbers of fields, and positions from 0. `room`
 * and *length count its numbers.
 *
 *   PROTOLINK_DONE, PROTOLINK_SHORT  as said under TEXTS.
 *   PROTOLINK_NOT_FOUND              the pool has no such name, or the bytes are no text.
 */
protolink_status protolink_pool_find_path(
    protolink_pool *pool, const uint8_t *name, size_t name_len, int32_t *path, size_t room,
    size_t *length);

/*
 * HOW MUCH THE POOL HAS of each kind that has indexes. It is always done.
 */
void protolink_pool_counts(protolink_pool *pool, protolink_counts *counts);

/*
 * THE EXTENSION OF A MESSAGE THAT HAS A NUMBER. No two extensions of a message have one number.
 *
 *   PROTOLINK_DONE       *extension is its index.
 *   PROTOLINK_NOT_FOUND  no extension of the pool extends the message with that number. Nothing is
 *                        written.
 */
protolink_status protolink_pool_extension(
    protolink_pool *pool, uint32_t message, uint32_t number, uint32_t *extension);

/*
 * A COPY. `copy` becomes a pool with equal contents, the same limit of faults and empty reports,
 * which shares nothing with `pool`. What it had is freed first. The two are not one.
 *
 *   PROTOLINK_DONE       it is copied.
 *   PROTOLINK_NO_MEMORY  memory was refused. `copy` is an empty pool.
 */
protolink_status protolink_pool_clone(protolink_pool *pool, protolink_pool *copy);

/*
 * WHAT A POOL CHANGES OF AN OLDER ONE, as an object of JSON on one line. Backward it is where a
 * reader of the files of `pool` reads otherwise, or not at all, what a writer of the files of
 * `older` writes. Forward it is where a reader of the files of `older` does so with what a writer
 * of the files of `pool` writes. The higher levels have more (docs/CHANGES.md). `level` is one of
 * the levels, and `compatibility` one of the compatibilities. The two may be one pool.
 *
 * The object is what `check_descriptors --against OLD --json NEW` has of an accepted batch, with
 * the same `--level` and `--compatibility`. It calls the older version "the older pool". Its member
 * `compared` has an entry of each direction, backward first, with the number of its changes. The
 * object has the first changes of each direction, at most as many as a report has faults of `pool`.
 * The text is made anew in each call, also where only the length is asked for.
 *
 *   PROTOLINK_DONE, PROTOLINK_SHORT  as said under TEXTS.
 *   PROTOLINK_NOT_FOUND              there is no such level, or no such compatibility.
 *   PROTOLINK_NO_MEMORY              memory was refused.
 */
protolink_status protolink_pool_changes(
    protolink_pool *pool, protolink_pool *older, uint32_t level, uint32_t compatibility,
    uint8_t *buffer, size_t room, size_t *length);

/*
 * FREE WHAT A POOL OWNS. It is an empty pool then, and may be used again, or cleared again.
 */
void protolink_pool_clear(protolink_pool *pool);

/*
 * ITEMS BY INDEX, AND PARTS OF ITEMS BY POSITION.
 *
 *   PROTOLINK_DONE       *info is written.
 *   PROTOLINK_NOT_FOUND  the pool has no such item, or the item no such part. Nothing is written.
 */
protolink_status protolink_file(protolink_pool *pool, uint32_t file, protolink_file_info *info);
protolink_status protolink_message(
    protolink_pool *pool, uint32_t message, protolink_message_info *info);
protolink_status protolink_field(
    protolink_pool *pool, uint32_t message, uint32_t position, protolink_field_info *info);
protolink_status protolink_oneof(
    protolink_pool *pool, uint32_t message, uint32_t position, protolink_oneof_info *info);
protolink_status protolink_enum(
    protolink_pool *pool, uint32_t enumeration, protolink_enum_info *info);
protolink_status protolink_enum_value(
    protolink_pool *pool, uint32_t enumeration, uint32_t position, protolink_enum_value_info *info);
protolink_status protolink_service(
    protolink_pool *pool, uint32_t service, protolink_service_info *info);
protolink_status protolink_method(
    protolink_pool *pool, uint32_t service, uint32_t position, protolink_method_info *info);
protolink_status protolink_extension(
    protolink_pool *pool, uint32_t extension, protolink_extension_info *info);

/*
 * LISTS OF ITEMS, by position: a file that a file imports, among its imports; an extension that
 * extends a message, and a field that is in a oneof, each in rising order.
 *
 *   PROTOLINK_DONE       *imported or *extension is an index, *field a position in the message.
 *   PROTOLINK_NOT_FOUND  the pool has no such item, or the list no such position. Nothing is
 *                        written.
 */
protolink_status protolink_file_import(
    protolink_pool *pool, uint32_t file, uint32_t position, uint32_t *imported);
protolink_status protolink_message_extension(
    protolink_pool *pool, uint32_t message, uint32_t position, uint32_t *extension);
protolink_status protolink_oneof_field(
    protolink_pool *pool, uint32_t message, uint32_t oneof, uint32_t position, uint32_t *field);

/*
 * THE ITEMS OF A KIND THAT ARE DECLARED IN A FILE, and in no message, and those in a message, and
 * in none of its messages: their indexes, in rising order. The kind is PROTOLINK_MESSAGE, .._ENUM,
 * .._EXTENSION or .._SERVICE, of which a message has none. `room` and *length count the indexes;
 * protolink_file_info and protolink_message_info have their number too.
 *
 * A call goes through all items of the kind that the pool has, and takes memory for its list. Each
 * item itself shows in one step where it is declared: by its file and its parent.
 *
 *   PROTOLINK_DONE, PROTOLINK_SHORT  as said under TEXTS.
 *   PROTOLINK_NOT_FOUND              the pool has no such file or message, or the kind is another.
 *   PROTOLINK_NO_MEMORY              memory was refused.
 */
protolink_status protolink_file_items(
    protolink_pool *pool, uint32_t file, uint32_t kind, uint32_t *indexes, size_t room,
    size_t *length);
protolink_status protolink_message_items(
    protolink_pool *pool, uint32_t message, uint32_t kind, uint32_t *indexes, size_t room,
    size_t *length);

/*
 * RANGES OF NUMBERS, by position: those that a message leaves to extensions, and those that a
 * message or an enum reserves.
 *
 *   PROTOLINK_DONE       *range is written.
 *   PROTOLINK_NOT_FOUND  the pool has no such message or enum, or it no such range. Nothing is
 *                        written.
 */
protolink_status protolink_message_extension_range(
    protolink_pool *pool, uint32_t message, uint32_t position, protolink_range *range);
protolink_status protolink_message_reserved_range(
    protolink_pool *pool, uint32_t message, uint32_t position, protolink_range *range);
protolink_status protolink_enum_reserved_range(
    protolink_pool *pool, uint32_t enumeration, uint32_t position, protolink_range *range);

/*
 * NAMES THAT A MESSAGE OR AN ENUM RESERVES, by position.
 *
 *   PROTOLINK_DONE, PROTOLINK_SHORT  as said under TEXTS.
 *   PROTOLINK_NOT_FOUND              the pool has no such message or enum, or it no such name.
 */
protolink_status protolink_message_reserved_name(
    protolink_pool *pool, uint32_t message, uint32_t position, uint8_t *buffer, size_t room,
    size_t *length);
protolink_status protolink_enum_reserved_name(
    protolink_pool *pool, uint32_t enumeration, uint32_t position, uint8_t *buffer, size_t room,
    size_t *length);

/*
 * A FILE by its name.
 *
 *   PROTOLINK_DONE       *file is its index.
 *   PROTOLINK_NOT_FOUND  the pool has no such file, or the bytes are no text. Nothing is written.
 */
protolink_status protolink_file_by_name(
    protolink_pool *pool, const uint8_t *name, size_t name_len, uint32_t *file);

/*
 * A FIELD OF A MESSAGE by its name, by its JSON name, by its number, and a VALUE OF AN ENUM by its
 * name. It is the only one that has it, which is proved of every pool: a batch in which two have
 * one is refused. By the JSON name those fields are found to which one was given, as protoc gives
 * it to all. Names are those that are declared, without a scope.
 *
 *   PROTOLINK_DONE       *position is the position in the message or the enum.
 *   PROTOLINK_NOT_FOUND  the pool has no such message or enum, which has no such part, or the bytes
 *                        are no text. Nothing is written.
 */
protolink_status protolink_field_by_name(
    protolink_pool *pool, uint32_t message, const uint8_t *name, size_t name_len,
    uint32_t *position);
protolink_status protolink_field_by_json_name(
    protolink_pool *pool, uint32_t message, const uint8_t *name, size_t name_len,
    uint32_t *position);
protolink_status protolink_field_by_number(
    protolink_pool *pool, uint32_t message, uint32_t number, uint32_t *position);
protolink_status protolink_enum_value_by_name(
    protolink_pool *pool, uint32_t enumeration, const uint8_t *name, size_t name_len,
    uint32_t *position);

/*
 * THE FIRST VALUE OF AN ENUM THAT HAS A NUMBER, by its position. It is the only one where the enum
 * does not allow aliases. The call goes through the values by their numbers.
 *
 *   PROTOLINK_DONE       *position is the position in the enum.
 *   PROTOLINK_NOT_FOUND  the pool has no such enum, which has no such value. Nothing is written.
 */
protolink_status protolink_enum_value_by_number(
    protolink_pool *pool, uint32_t enumeration, int32_t number, uint32_t *position);

/*
 * THE METHOD OF A SERVICE THAT HAS A NAME, without a scope. It is found by its full name, in one
 * step.
 *
 *   PROTOLINK_DONE       *position is the position in the service.
 *   PROTOLINK_NOT_FOUND  the pool has no such service, which has no such method, or the bytes are
 *                        no text. Nothing is written.
 *   PROTOLINK_NO_MEMORY  memory was refused. Nothing is written.
 */
protolink_status protolink_method_by_name(
    protolink_pool *pool, uint32_t service, const uint8_t *name, size_t name_len,
    uint32_t *position);

/*
 * THE NAME OF A FILE, and its package, which is empty where it has none.
 *
 *   PROTOLINK_DONE, PROTOLINK_SHORT  as said under TEXTS.
 *   PROTOLINK_NOT_FOUND              the pool has no file with this index.
 */
protolink_status protolink_file_name(
    protolink_pool *pool, uint32_t file, uint8_t *buffer, size_t room, size_t *length);
protolink_status protolink_file_package(
    protolink_pool *pool, uint32_t file, uint8_t *buffer, size_t room, size_t *length);

/*
 * THE NAMES OF AN ITEM: the name as it is declared, the full name without a leading dot, and of a
 * field or an extension the JSON name.
 *
 *   PROTOLINK_DONE, PROTOLINK_SHORT  as said under TEXTS.
 *   PROTOLINK_NOT_FOUND              the pool has no such item; it is a package; or it has no JSON
 *                                    name: what is neither a field nor an extension, and a field to
 *                                    which none was given.
 */
protolink_status protolink_name(
    protolink_pool *pool, const protolink_item *item, uint8_t *buffer, size_t room, size_t *length);
protolink_status protolink_full_name(
    protolink_pool *pool, const protolink_item *item, uint8_t *buffer, size_t room, size_t *length);
protolink_status protolink_json_name(
    protolink_pool *pool, const protolink_item *item, uint8_t *buffer, size_t room, size_t *length);

/*
 * THE DEFAULT VALUE OF A FIELD OR AN EXTENSION: of a whole number its digits, with a minus before
 * those of a negative one; of a float the text that was written; `true` or `false`; of a text its
 * bytes, and of bytes the bytes themselves, without quotes and escapes; of an enum the number of
 * the value.
 *
 *   PROTOLINK_DONE, PROTOLINK_SHORT  as said under TEXTS.
 *   PROTOLINK_NOT_FOUND              the pool has no such item, it is neither a field nor an
 *                                    extension, or no default value was given.
 *   PROTOLINK_NO_MEMORY              memory was refused.
 */
protolink_status protolink_default(
    protolink_pool *pool, const protolink_item *item, uint8_t *buffer, size_t room, size_t *length);

/*
 * THE OPTIONS OF A FILE AND OF AN ITEM, as the bytes of their message of descriptor.proto, also
 * those that the library does not read. Of what has no options there are no bytes. A script gives
 * none.
 *
 *   PROTOLINK_DONE, PROTOLINK_SHORT  as said under TEXTS.
 *   PROTOLINK_NOT_FOUND              the pool has no such file or item, or it is a package.
 */
protolink_status protolink_file_options(
    protolink_pool *pool, uint32_t file, uint8_t *buffer, size_t room, size_t *length);
protolink_status protolink_options(
    protolink_pool *pool, const protolink_item *item, uint8_t *buffer, size_t room, size_t *length);

/*
 * THE PATH OF AN ITEM in the record of its file, as SourceCodeInfo of descriptor.proto writes
 * paths: numbers of fields, and positions from 0. `room` and *length count its numbers.
 *
 *   PROTOLINK_DONE, PROTOLINK_SHORT  as said under TEXTS.
 *   PROTOLINK_NOT_FOUND              the pool has no such item, or it is a package.
 */
protolink_status protolink_path(
    protolink_pool *pool, const protolink_item *item, int32_t *path, size_t room, size_t *length);

/*
 * WHERE AN ITEM IS IN THE SOURCE, as SourceCodeInfo of descriptor.proto writes a span: the line and
 * the column at which it begins, the line in which it ends, the column after its end. Where it ends
 * in its first line, there are three numbers, without the second line. They count from 0, where
 * the reports count from 1. They are those of the first location with the path of the item. `room`
 * and *length count the numbers.
 *
 *   PROTOLINK_DONE, PROTOLINK_SHORT  as said under TEXTS.
 *   PROTOLINK_NOT_FOUND              the pool has no such item, it is a package, or its file does
 *                                    not say where it is, as it does by protoc's
 *                                    --include_source_info.
 */
protolink_status protolink_span(
    protolink_pool *pool, const protolink_item *item, int32_t *span, size_t room, size_t *length);

/*
 * THE COMMENTS OF AN ITEM: the one right before it, the one right after it, and by position those
 * before it by themselves.
 *
 *   PROTOLINK_DONE, PROTOLINK_SHORT  as said under TEXTS.
 *   PROTOLINK_NOT_FOUND              the pool has no such item, it is a package, or its file has
 *                                    no such comment.
 */
protolink_status protolink_leading_comments(
    protolink_pool *pool, const protolink_item *item, uint8_t *buffer, size_t room, size_t *length);
protolink_status protolink_trailing_comments(
    protolink_pool *pool, const protolink_item *item, uint8_t *buffer, size_t room, size_t *length);
protolink_status protolink_detached_comments(
    protolink_pool *pool, const protolink_item *item, uint32_t position, uint8_t *buffer,
    size_t room, size_t *length);

/*
 * A POINTER WITH A LENGTH MAY BE NULL, where the length is 0: it is passed on as one that is not,
 * by the functions that follow here. Whoever calls the library without this header passes no null
 * pointer.
 */
static inline const uint8_t *protolink_bytes_at(const uint8_t *at)
{
    static const uint8_t none = 0;
    return at != NULL ? at : &none;
}

static inline uint8_t *protolink_buffer_at(uint8_t *at)
{
    static uint8_t none = 0;
    return at != NULL ? at : &none;
}

static inline int32_t *protolink_numbers_at(int32_t *at)
{
    static int32_t none = 0;
    return at != NULL ? at : &none;
}

static inline uint32_t *protolink_indexes_at(uint32_t *at)
{
    static uint32_t none = 0;
    return at != NULL ? at : &none;
}

static inline const size_t *protolink_lens_at(const size_t *at)
{
    static const size_t none = 0;
    return at != NULL ? at : &none;
}

static inline protolink_status protolink_pool_add_set_or_null(
    protolink_pool *pool, const uint8_t *bytes, size_t len)
{
    return protolink_pool_add_set(pool, protolink_bytes_at(bytes), len);
}
#define protolink_pool_add_set protolink_pool_add_set_or_null

static inline protolink_status protolink_pool_add_file_or_null(
    protolink_pool *pool, const uint8_t *bytes, size_t len)
{
    return protolink_pool_add_file(pool, protolink_bytes_at(bytes), len);
}
#define protolink_pool_add_file protolink_pool_add_file_or_null

static inline protolink_status protolink_pool_add_files_or_null(
    protolink_pool *pool, const uint8_t *bytes, size_t len, const size_t *lens, size_t count)
{
    return protolink_pool_add_files(
        pool, protolink_bytes_at(bytes), len, protolink_lens_at(lens), count);
}
#define protolink_pool_add_files protolink_pool_add_files_or_null

static inline protolink_status protolink_pool_add_script_or_null(
    protolink_pool *pool, const uint8_t *script, size_t len)
{
    return protolink_pool_add_script(pool, protolink_bytes_at(script), len);
}
#define protolink_pool_add_script protolink_pool_add_script_or_null

/*
 * LOOK-UPS IN A CONST POOL. A call of the library that only reads a pool has what it is passed as
 * the pool for itself, and puts back there what it found. So it is not passed the pool but a copy,
 * by the function of its name that follows here. Whoever calls the library without this header
 * makes the copy, one for each call; or passes the pool itself, where no other call uses it.
 *
 * A pool that is to be a copy of itself stays as it is.
 */
static inline protolink_status protolink_pool_report_const(
    const protolink_pool *pool, uint8_t *buffer, size_t room, size_t *length)
{
    protolink_pool view = *pool;
    return protolink_pool_report(&view, protolink_buffer_at(buffer), room, length);
}
#define protolink_pool_report protolink_pool_report_const

static inline protolink_status protolink_pool_report_json_const(
    const protolink_pool *pool, uint8_t *buffer, size_t room, size_t *length)
{
    protolink_pool view = *pool;
    return protolink_pool_report_json(&view, protolink_buffer_at(buffer), room, length);
}
#define protolink_pool_report_json protolink_pool_report_json_const

static inline protolink_status protolink_pool_linked_const(
    const protolink_pool *pool, uint8_t *buffer, size_t room, size_t *length)
{
    protolink_pool view = *pool;
    return protolink_pool_linked(&view, protolink_buffer_at(buffer), room, length);
}
#define protolink_pool_linked protolink_pool_linked_const

static inline protolink_status protolink_pool_linked_file_const(
    const protolink_pool *pool, uint32_t file, uint8_t *buffer, size_t room, size_t *length)
{
    protolink_pool view = *pool;
    return protolink_pool_linked_file(&view, file, protolink_buffer_at(buffer), room, length);
}
#define protolink_pool_linked_file protolink_pool_linked_file_const

static inline protolink_status protolink_pool_find_const(
    const protolink_pool *pool, const uint8_t *name, size_t name_len, protolink_item *item,
    uint32_t *file)
{
    protolink_pool view = *pool;
    return protolink_pool_find(&view, protolink_bytes_at(name), name_len, item, file);
}
#define protolink_pool_find protolink_pool_find_const

static inline protolink_status protolink_pool_find_path_const(
    const protolink_pool *pool, const uint8_t *name, size_t name_len, int32_t *path, size_t room,
    size_t *length)
{
    protolink_pool view = *pool;
    return protolink_pool_find_path(
        &view, protolink_bytes_at(name), name_len, protolink_numbers_at(path), room, length);
}
#define protolink_pool_find_path protolink_pool_find_path_const

static inline void protolink_pool_added_const(const protolink_pool *pool, protolink_added *added)
{
    protolink_pool view = *pool;
    protolink_pool_added(&view, added);
}
#define protolink_pool_added protolink_pool_added_const

static inline void protolink_pool_counts_const(const protolink_pool *pool, protolink_counts *counts)
{
    protolink_pool view = *pool;
    protolink_pool_counts(&view, counts);
}
#define protolink_pool_counts protolink_pool_counts_const

static inline protolink_status protolink_pool_extension_const(
    const protolink_pool *pool, uint32_t message, uint32_t number, uint32_t *extension)
{
    protolink_pool view = *pool;
    return protolink_pool_extension(&view, message, number, extension);
}
#define protolink_pool_extension protolink_pool_extension_const

static inline protolink_status protolink_pool_changes_const(
    const protolink_pool *pool, const protolink_pool *older, uint32_t level, uint32_t compatibility,
    uint8_t *buffer, size_t room, size_t *length)
{
    protolink_pool view = *pool, older_view = *older;
    return protolink_pool_changes(
        &view, &older_view, level, compatibility, protolink_buffer_at(buffer), room, length);
}
#define protolink_pool_changes protolink_pool_changes_const

static inline protolink_status protolink_pool_clone_const(
    const protolink_pool *pool, protolink_pool *copy)
{
    if (copy->at == pool->at)
        return PROTOLINK_DONE;
    protolink_pool view = *pool;
    return protolink_pool_clone(&view, copy);
}
#define protolink_pool_clone protolink_pool_clone_const

static inline protolink_status protolink_file_const(
    const protolink_pool *pool, uint32_t file, protolink_file_info *info)
{
    protolink_pool view = *pool;
    return protolink_file(&view, file, info);
}
#define protolink_file protolink_file_const

static inline protolink_status protolink_message_const(
    const protolink_pool *pool, uint32_t message, protolink_message_info *info)
{
    protolink_pool view = *pool;
    return protolink_message(&view, message, info);
}
#define protolink_message protolink_message_const

static inline protolink_status protolink_field_const(
    const protolink_pool *pool, uint32_t message, uint32_t position, protolink_field_info *info)
{
    protolink_pool view = *pool;
    return protolink_field(&view, message, position, info);
}
#define protolink_field protolink_field_const

static inline protolink_status protolink_oneof_const(
    const protolink_pool *pool, uint32_t message, uint32_t position, protolink_oneof_info *info)
{
    protolink_pool view = *pool;
    return protolink_oneof(&view, message, position, info);
}
#define protolink_oneof protolink_oneof_const

static inline protolink_status protolink_enum_const(
    const protolink_pool *pool, uint32_t enumeration, protolink_enum_info *info)
{
    protolink_pool view = *pool;
    return protolink_enum(&view, enumeration, info);
}
#define protolink_enum protolink_enum_const

static inline protolink_status protolink_enum_value_const(
    const protolink_pool *pool, uint32_t enumeration, uint32_t position,
    protolink_enum_value_info *info)
{
    protolink_pool view = *pool;
    return protolink_enum_value(&view, enumeration, position, info);
}
#define protolink_enum_value protolink_enum_value_const

static inline protolink_status protolink_service_const(
    const protolink_pool *pool, uint32_t service, protolink_service_info *info)
{
    protolink_pool view = *pool;
    return protolink_service(&view, service, info);
}
#define protolink_service protolink_service_const

static inline protolink_status protolink_method_const(
    const protolink_pool *pool, uint32_t service, uint32_t position, protolink_method_info *info)
{
    protolink_pool view = *pool;
    return protolink_method(&view, service, position, info);
}
#define protolink_method protolink_method_const

static inline protolink_status protolink_extension_const(
    const protolink_pool *pool, uint32_t extension, protolink_extension_info *info)
{
    protolink_pool view = *pool;
    return protolink_extension(&view, extension, info);
}
#define protolink_extension protolink_extension_const

static inline protolink_status protolink_file_import_const(
    const protolink_pool *pool, uint32_t file, uint32_t position, uint32_t *imported)
{
    protolink_pool view = *pool;
    return protolink_file_import(&view, file, position, imported);
}
#define protolink_file_import protolink_file_import_const

static inline protolink_status protolink_message_extension_const(
    const protolink_pool *pool, uint32_t message, uint32_t position, uint32_t *extension)
{
    protolink_pool view = *pool;
    return protolink_message_extension(&view, message, position, extension);
}
#define protolink_message_extension protolink_message_extension_const

static inline protolink_status protolink_oneof_field_const(
    const protolink_pool *pool, uint32_t message, uint32_t oneof, uint32_t position,
    uint32_t *field)
{
    protolink_pool view = *pool;
    return protolink_oneof_field(&view, message, oneof, position, field);
}
#define protolink_oneof_field protolink_oneof_field_const

static inline protolink_status protolink_file_items_const(
    const protolink_pool *pool, uint32_t file, uint32_t kind, uint32_t *indexes, size_t room,
    size_t *length)
{
    protolink_pool view = *pool;
    return protolink_file_items(&view, file, kind, protolink_indexes_at(indexes), room, length);
}
#define protolink_file_items protolink_file_items_const

static inline protolink_status protolink_message_items_const(
    const protolink_pool *pool, uint32_t message, uint32_t kind, uint32_t *indexes, size_t room,
    size_t *length)
{
    protolink_pool view = *pool;
    return protolink_message_items(
        &view, message, kind, protolink_indexes_at(indexes), room, length);
}
#define protolink_message_items protolink_message_items_const

static inline protolink_status protolink_message_extension_range_const(
    const protolink_pool *pool, uint32_t message, uint32_t position, protolink_range *range)
{
    protolink_pool view = *pool;
    return protolink_message_extension_range(&view, message, position, range);
}
#define protolink_message_extension_range protolink_message_extension_range_const

static inline protolink_status protolink_message_reserved_range_const(
    const protolink_pool *pool, uint32_t message, uint32_t position, protolink_range *range)
{
    protolink_pool view = *pool;
    return protolink_message_reserved_range(&view, message, position, range);
}
#define protolink_message_reserved_range protolink_message_reserved_range_const

static inline protolink_status protolink_enum_reserved_range_const(
    const protolink_pool *pool, uint32_t enumeration, uint32_t position, protolink_range *range)
{
    protolink_pool view = *pool;
    return protolink_enum_reserved_range(&view, enumeration, position, range);
}
#define protolink_enum_reserved_range protolink_enum_reserved_range_const

static inline protolink_status protolink_message_reserved_name_const(
    const protolink_pool *pool, uint32_t message, uint32_t position, uint8_t *buffer, size_t room,
    size_t *length)
{
    protolink_pool view = *pool;
    return protolink_message_reserved_name(
        &view, message, position, protolink_buffer_at(buffer), room, length);
}
#define protolink_message_reserved_name protolink_message_reserved_name_const

static inline protolink_status protolink_enum_reserved_name_const(
    const protolink_pool *pool, uint32_t enumeration, uint32_t position, uint8_t *buffer,
    size_t room, size_t *length)
{
    protolink_pool view = *pool;
    return protolink_enum_reserved_name(
        &view, enumeration, position, protolink_buffer_at(buffer), room, length);
}
#define protolink_enum_reserved_name protolink_enum_reserved_name_const

static inline protolink_status protolink_file_by_name_const(
    const protolink_pool *pool, const uint8_t *name, size_t name_len, uint32_t *file)
{
    protolink_pool view = *pool;
    return protolink_file_by_name(&view, protolink_bytes_at(name), name_len, file);
}
#define protolink_file_by_name protolink_file_by_name_const

static inline protolink_status protolink_field_by_name_const(
    const protolink_pool *pool, uint32_t message, const uint8_t *name, size_t name_len,
    uint32_t *position)
{
    protolink_pool view = *pool;
    return protolink_field_by_name(&view, message, protolink_bytes_at(name), name_len, position);
}
#define protolink_field_by_name protolink_field_by_name_const

static inline protolink_status protolink_field_by_json_name_const(
    const protolink_pool *pool, uint32_t message, const uint8_t *name, size_t name_len,
    uint32_t *position)
{
    protolink_pool view = *pool;
    return protolink_field_by_json_name(
        &view, message, protolink_bytes_at(name), name_len, position);
}
#define protolink_field_by_json_name protolink_field_by_json_name_const

static inline protolink_status protolink_field_by_number_const(
    const protolink_pool *pool, uint32_t message, uint32_t number, uint32_t *position)
{
    protolink_pool view = *pool;
    return protolink_field_by_number(&view, message, number, position);
}
#define protolink_field_by_number protolink_field_by_number_const

static inline protolink_status protolink_enum_value_by_name_const(
    const protolink_pool *pool, uint32_t enumeration, const uint8_t *name, size_t name_len,
    uint32_t *position)
{
    protolink_pool view = *pool;
    return protolink_enum_value_by_name(
        &view, enumeration, protolink_bytes_at(name), name_len, position);
}
#define protolink_enum_value_by_name protolink_enum_value_by_name_const

static inline protolink_status protolink_enum_value_by_number_const(
    const protolink_pool *pool, uint32_t enumeration, int32_t number, uint32_t *position)
{
    protolink_pool view = *pool;
    return protolink_enum_value_by_number(&view, enumeration, number, position);
}
#define protolink_enum_value_by_number protolink_enum_value_by_number_const

static inline protolink_status protolink_method_by_name_const(
    const protolink_pool *pool, uint32_t service, const uint8_t *name, size_t name_len,
    uint32_t *position)
{
    protolink_pool view = *pool;
    return protolink_method_by_name(&view, service, protolink_bytes_at(name), name_len, position);
}
#define protolink_method_by_name protolink_method_by_name_const

static inline protolink_status protolink_file_name_const(
    const protolink_pool *pool, uint32_t file, uint8_t *buffer, size_t room, size_t *length)
{
    protolink_pool view = *pool;
    return protolink_file_name(&view, file, protolink_buffer_at(buffer), room, length);
}
#define protolink_file_name protolink_file_name_const

static inline protolink_status protolink_file_package_const(
    const protolink_pool *pool, uint32_t file, uint8_t *buffer, size_t room, size_t *length)
{
    protolink_pool view = *pool;
    return protolink_file_package(&view, file, protolink_buffer_at(buffer), room, length);
}
#define protolink_file_package protolink_file_package_const

static inline protolink_status protolink_name_const(
    const protolink_pool *pool, const protolink_item *item, uint8_t *buffer, size_t room,
    size_t *length)
{
    protolink_pool view = *pool;
    return protolink_name(&view, item, protolink_buffer_at(buffer), room, length);
}
#define protolink_name protolink_name_const

static inline protolink_status protolink_full_name_const(
    const protolink_pool *pool, const protolink_item *item, uint8_t *buffer, size_t room,
    size_t *length)
{
    protolink_pool view = *pool;
    return protolink_full_name(&view, item, protolink_buffer_at(buffer), room, length);
}
#define protolink_full_name protolink_full_name_const

static inline protolink_status protolink_json_name_const(
    const protolink_pool *pool, const protolink_item *item, uint8_t *buffer, size_t room,
    size_t *length)
{
    protolink_pool view = *pool;
    return protolink_json_name(&view, item, protolink_buffer_at(buffer), room, length);
}
#define protolink_json_name protolink_json_name_const

static inline protolink_status protolink_default_const(
    const protolink_pool *pool, const protolink_item *item, uint8_t *buffer, size_t room,
    size_t *length)
{
    protolink_pool view = *pool;
    return protolink_default(&view, item, protolink_buffer_at(buffer), room, length);
}
#define protolink_default protolink_default_const

static inline protolink_status protolink_file_options_const(
    const protolink_pool *pool, uint32_t file, uint8_t *buffer, size_t room, size_t *length)
{
    protolink_pool view = *pool;
    return protolink_file_options(&view, file, protolink_buffer_at(buffer), room, length);
}
#define protolink_file_options protolink_file_options_const

static inline protolink_status protolink_options_const(
    const protolink_pool *pool, const protolink_item *item, uint8_t *buffer, size_t room,
    size_t *length)
{
    protolink_pool view = *pool;
    return protolink_options(&view, item, protolink_buffer_at(buffer), room, length);
}
#define protolink_options protolink_options_const

static inline protolink_status protolink_path_const(
    const protolink_pool *pool, const protolink_item *item, int32_t *path, size_t room,
    size_t *length)
{
    protolink_pool view = *pool;
    return protolink_path(&view, item, protolink_numbers_at(path), room, length);
}
#define protolink_path protolink_path_const

static inline protolink_status protolink_span_const(
    const protolink_pool *pool, const protolink_item *item, int32_t *span, size_t room,
    size_t *length)
{
    protolink_pool view = *pool;
    return protolink_span(&view, item, protolink_numbers_at(span), room, length);
}
#define protolink_span protolink_span_const

static inline protolink_status protolink_leading_comments_const(
    const protolink_pool *pool, const protolink_item *item, uint8_t *buffer, size_t room,
    size_t *length)
{
    protolink_pool view = *pool;
    return protolink_leading_comments(&view, item, protolink_buffer_at(buffer), room, length);
}
#define protolink_leading_comments protolink_leading_comments_const

static inline protolink_status protolink_trailing_comments_const(
    const protolink_pool *pool, const protolink_item *item, uint8_t *buffer, size_t room,
    size_t *length)
{
    protolink_pool view = *pool;
    return protolink_trailing_comments(&view, item, protolink_buffer_at(buffer), room, length);
}
#define protolink_trailing_comments protolink_trailing_comments_const

static inline protolink_status protolink_detached_comments_const(
    const protolink_pool *pool, const protolink_item *item, uint32_t position, uint8_t *buffer,
    size_t room, size_t *length)
{
    protolink_pool view = *pool;
    return protolink_detached_comments(
        &view, item, position, protolink_buffer_at(buffer), room, length);
}
#define protolink_detached_comments protolink_detached_comments_const

#ifdef __cplusplus
}
#endif

#endif
