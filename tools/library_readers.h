/* Calls that read a pool, each at least once: all of protolink.h but those that add files, hand
   linked files on, copy and free, and those that ask for memory: protolink_default, .._file_items,
   .._message_items and .._method_by_name. */
#include "library_wants.h"

/* Two files with an item of each kind, as a script. */
static const char read_first[] =
    "file a.proto\npackage p.q\nmessage M\noneof o\nfield f 1 optional int32 ~ 0\ndefault 7\n"
    "json g\nextensions 100 200\nend\nextend x 100 optional int32 ~ .p.q.M\nenum E\nvalue A -1\n"
    "end\nservice S\nmethod T .p.q.M .p.q.N\nend\nmessage N\nend\nend\n";
static const char read_second[] = "file b.proto\nimport a.proto\nsyntax proto3\nend\n";

static int read_names(const protolink_pool *pool)
{
    protolink_item item;
    uint32_t number;
    int32_t path[8];
    size_t count;
    WANT(protolink_version() == PROTOLINK_VERSION);
    WANT(protolink_pool_find(pool, as_bytes("p.q.M.f"), 7, &item, &number) == PROTOLINK_DONE);
    WANT(item.kind == PROTOLINK_FIELD && item.index == 0 && item.position == 0 && number == 0);
    WANT(protolink_pool_find_path(pool, as_bytes("p.q.M"), 5, path, 8, &count) == PROTOLINK_DONE);
    WANT(count == 3 && path[0] == 4 && path[1] == 0 && path[2] == 1);
    WANT(protolink_pool_find(pool, as_bytes("\xff"), 1, &item, &number) == PROTOLINK_NOT_FOUND);
    WANT_TEXT(protolink_file_name(pool, 1, text, 64, &length), "b.proto");
    WANT_TEXT(protolink_file_package(pool, 0, text, 64, &length), "p.q");
    WANT_TEXT(protolink_name(pool, &item, text, 64, &length), "f");
    WANT_TEXT(protolink_full_name(pool, &item, text, 64, &length), "p.q.M.f");
    WANT_TEXT(protolink_json_name(pool, &item, text, 64, &length), "g");
    return 0;
}

static int read_messages(const protolink_pool *pool)
{
    protolink_message_info message;
    protolink_field_info field;
    protolink_oneof_info oneof;
    protolink_extension_info extension;
    uint32_t number;
    WANT(protolink_message(pool, 0, &message) == PROTOLINK_DONE && message.fields == 1);
    WANT(message.oneofs == 1 && message.extensions == 1 && message.parent == PROTOLINK_NONE);
    WANT(protolink_message(pool, 2, &message) == PROTOLINK_NOT_FOUND);
    WANT(protolink_field(pool, 0, 0, &field) == PROTOLINK_DONE && field.number == 1);
    WANT(field.oneof == 0 && field.has_default == 1 && field.kind == PROTOLINK_TYPE_INT32);
    WANT(protolink_oneof(pool, 0, 0, &oneof) == PROTOLINK_DONE && oneof.fields == 1);
    WANT(protolink_oneof_field(pool, 0, 0, 0, &number) == PROTOLINK_DONE && number == 0);
    WANT(protolink_extension(pool, 0, &extension) == PROTOLINK_DONE && extension.number == 100);
    WANT(protolink_message_extension(pool, 0, 0, &number) == PROTOLINK_DONE && number == 0);
    WANT(protolink_pool_extension(pool, 0, 100, &number) == PROTOLINK_DONE && number == 0);
    WANT(protolink_field_by_name(pool, 0, as_bytes("f"), 1, &number) == PROTOLINK_DONE);
    WANT(protolink_field_by_json_name(pool, 0, as_bytes("g"), 1, &number) == PROTOLINK_DONE);
    WANT(protolink_field_by_number(pool, 0, 1, &number) == PROTOLINK_DONE && number == 0);
    WANT(protolink_field_by_number(pool, 0, 2, &number) == PROTOLINK_NOT_FOUND);
    return 0;
}

static int read_others(const protolink_pool *pool)
{
    protolink_counts counts;
    protolink_file_info file;
    protolink_enum_info enumeration;
    protolink_enum_value_info value;
    protolink_service_info service;
    protolink_method_info method;
    uint32_t number;
    protolink_pool_counts(pool, &counts);
    WANT(counts.files == 2 && counts.messages == 2 && counts.enums == 1);
    WANT(counts.services == 1 && counts.extensions == 1);
    WANT(protolink_file(pool, 1, &file) == PROTOLINK_DONE && file.syntax == PROTOLINK_PROTO3);
    WANT(file.imports == 1);
    WANT(protolink_file_import(pool, 1, 0, &number) == PROTOLINK_DONE && number == 0);
    WANT(protolink_enum(pool, 0, &enumeration) == PROTOLINK_DONE && enumeration.values == 1);
    WANT(protolink_enum_value(pool, 0, 0, &value) == PROTOLINK_DONE && value.number == -1);
    WANT(protolink_enum_value_by_name(pool, 0, as_bytes("A"), 1, &number) == PROTOLINK_DONE);
    WANT(protolink_service(pool, 0, &service) == PROTOLINK_DONE && service.methods == 1);
    WANT(protolink_method(pool, 0, 0, &method) == PROTOLINK_DONE && method.output == 1);
    return 0;
}

/* What the records of a script tell: no options and no places. */
static int read_records(const protolink_pool *pool)
{
    protolink_item field = { PROTOLINK_FIELD, 0, 0 };
    protolink_range range;
    uint8_t text[1];
    int32_t path[8];
    uint32_t number;
    size_t count;
    WANT(protolink_message_extension_range(pool, 0, 0, &range) == PROTOLINK_DONE);
    WANT(range.start == 100);
    WANT(protolink_message_reserved_range(pool, 0, 0, &range) == PROTOLINK_NOT_FOUND);
    WANT(protolink_enum_reserved_range(pool, 0, 0, &range) == PROTOLINK_NOT_FOUND);
    WANT(protolink_message_reserved_name(pool, 0, 0, text, 0, &count) == PROTOLINK_NOT_FOUND);
    WANT(protolink_enum_reserved_name(pool, 0, 0, text, 0, &count) == PROTOLINK_NOT_FOUND);
    WANT(protolink_file_by_name(pool, as_bytes("b.proto"), 7, &number) == PROTOLINK_DONE);
    WANT(number == 1);
    WANT(protolink_enum_value_by_number(pool, 0, -1, &number) == PROTOLINK_DONE && number == 0);
    WANT(protolink_path(pool, &field, path, 8, &count) == PROTOLINK_DONE);
    WANT(count == 4 && path[0] == 4 && path[1] == 0 && path[2] == 2 && path[3] == 0);
    WANT(protolink_span(pool, &field, path, 8, &count) == PROTOLINK_NOT_FOUND);
    WANT_TEXT(protolink_options(pool, &field, text, 64, &length), "");
    WANT_TEXT(protolink_file_options(pool, 0, text, 64, &length), "");
    WANT(protolink_leading_comments(pool, &field, text, 0, &count) == PROTOLINK_NOT_FOUND);
    WANT(protolink_trailing_comments(pool, &field, text, 0, &count) == PROTOLINK_NOT_FOUND);
    WANT(protolink_detached_comments(pool, &field, 0, text, 0, &count) == PROTOLINK_NOT_FOUND);
    return 0;
}

/* The reports behind a batch that was accepted. */
static int read_reports(const protolink_pool *pool)
{
    protolink_added added;
    WANT_TEXT(protolink_pool_report(pool, text, 64, &length), "");
    WANT_TEXT(protolink_pool_report_json(pool, text, 64, &length), "");
    protolink_pool_added(pool, &added);
    WANT(added.differing == 0);
    return 0;
}

/* Reads a pool that has the two files: 0, or the line at which an answer was wrong. */
static int read_all(const protolink_pool *pool)
{
    int status = read_names(pool);
    if (status == 0)
        status = read_messages(pool);
    if (status == 0)
        status = read_others(pool);
    if (status == 0)
        status = read_records(pool);
    return status != 0 ? status : read_reports(pool);
}
