/* Asks a pool for all that the records of its items tell: flags, ranges, reserved names, lists,
   options, comments, places. tools/library makes the set of `told.proto` that its argument names,
   builds this and runs it. Exit status: 0, or the line at which an answer was wrong. */
#include "library_wants.h"

#include <stdio.h>

static uint8_t set[1 << 16];

/* What a name means, which the pool must have. */
static protolink_item item_of(protolink_pool *pool, const char *name)
{
    protolink_item item = { PROTOLINK_PACKAGE, PROTOLINK_NONE, 0 };
    uint32_t file;
    protolink_pool_find(pool, as_bytes(name), strlen(name), &item, &file);
    return item;
}

/* The item is a field: what it tells of itself. */
static protolink_field_info field_of(protolink_pool *pool, const char *name)
{
    protolink_field_info info;
    protolink_item item = item_of(pool, name);
    memset(&info, 255, sizeof info);
    protolink_field(pool, item.index, item.position, &info);
    return info;
}

static int read_fields(protolink_pool *pool)
{
    protolink_field_info info = field_of(pool, "trial.told.All.orders");
    WANT(info.is_map == 1 && info.is_list == 0 && info.is_deprecated == 0);
    info = field_of(pool, "trial.told.All.names");
    WANT(info.is_map == 0 && info.is_list == 1 && info.is_deprecated == 1);
    WANT(info.is_required == 0 && info.is_group == 0 && info.is_proto3_optional == 0);
    info = field_of(pool, "trial.told.All.number");
    WANT(info.is_list == 0 && info.is_proto3_optional == 1 && info.supports_presence == 1);
    info = field_of(pool, "trial.old.Order.id");
    WANT(info.is_required == 1 && info.is_proto3_optional == 0);
    info = field_of(pool, "trial.old.Order.item");
    WANT(info.is_group == 1 && info.is_list == 0);
    return 0;
}

static int read_message(protolink_pool *pool)
{
    uint32_t all = item_of(pool, "trial.told.All").index;
    uint32_t entry = item_of(pool, "trial.told.All.OrdersEntry").index;
    protolink_message_info info;
    protolink_oneof_info oneof;
    WANT(protolink_message(pool, all, &info) == PROTOLINK_DONE);
    WANT(info.nested_messages == 2 && info.nested_enums == 1 && info.nested_extensions == 0);
    WANT(info.reserved_ranges == 2 && info.reserved_names == 2 && info.extension_ranges == 0);
    WANT(info.is_map_entry == 0 && info.is_message_set == 0 && info.is_deprecated == 1);
    WANT(info.map_key == PROTOLINK_NONE && info.map_value == PROTOLINK_NONE);
    WANT(protolink_message(pool, entry, &info) == PROTOLINK_DONE);
    WANT(info.is_map_entry == 1 && info.map_key == 0 && info.map_value == 1);
    WANT(info.parent == all && info.is_deprecated == 0);
    WANT(protolink_message(pool, item_of(pool, "trial.old.Set").index, &info) == PROTOLINK_DONE);
    WANT(info.is_message_set == 1 && info.extension_ranges == 1);
    WANT(protolink_oneof(pool, all, 1, &oneof) == PROTOLINK_DONE);
    WANT(oneof.is_synthetic == 1 && oneof.fields == 1);
    WANT(protolink_oneof(pool, all, 0, &oneof) == PROTOLINK_DONE && oneof.is_synthetic == 0);
    return 0;
}

static int read_enum(protolink_pool *pool)
{
    uint32_t state = item_of(pool, "trial.told.All.State").index;
    uint32_t old = item_of(pool, "trial.old.Order.State").index;
    protolink_enum_info info;
    protolink_enum_value_info value;
    uint32_t position;
    WANT(protolink_enum(pool, state, &info) == PROTOLINK_DONE && info.is_closed == 0);
    WANT(info.reserved_ranges == 2 && info.reserved_names == 1 && info.is_deprecated == 1);
    WANT(protolink_enum(pool, old, &info) == PROTOLINK_DONE && info.is_closed == 1);
    WANT(info.is_deprecated == 0);
    WANT(protolink_enum_value_by_number(pool, state, -1, &position) == PROTOLINK_DONE);
    WANT(position == 2);
    WANT(protolink_enum_value(pool, state, position, &value) == PROTOLINK_DONE);
    WANT(value.number == -1 && value.is_deprecated == 1);
    WANT(protolink_enum_value_by_number(pool, state, 1, &position) == PROTOLINK_DONE);
    WANT(position == 1);
    WANT(protolink_enum_value_by_number(pool, state, 3, &position) == PROTOLINK_NOT_FOUND);
    return 0;
}

static int read_service(protolink_pool *pool)
{
    uint32_t service = item_of(pool, "trial.told.Streams").index;
    protolink_service_info info;
    protolink_method_info method;
    uint32_t position;
    WANT(protolink_service(pool, service, &info) == PROTOLINK_DONE && info.is_deprecated == 1);
    WANT(protolink_method_by_name(pool, service, as_bytes("Up"), 2, &position) == PROTOLINK_DONE);
    WANT(position == 1);
    WANT(protolink_method(pool, service, position, &method) == PROTOLINK_DONE);
    WANT(method.client_streaming == 1 && method.server_streaming == 0 && method.is_deprecated == 0);
    WANT(protolink_method(pool, service, 2, &method) == PROTOLINK_DONE);
    WANT(method.client_streaming == 0 && method.server_streaming == 1 && method.is_deprecated == 1);
    WANT(protolink_method(pool, service, 0, &method) == PROTOLINK_DONE);
    WANT(method.client_streaming == 0 && method.server_streaming == 0);
    WANT(protolink_method_by_name(pool, service, as_bytes("Tell"), 4, &position)
         == PROTOLINK_NOT_FOUND);
    return 0;
}

static int is_range(const protolink_range *range, int32_t start, int32_t end)
{
    return range->start == start && range->end == end;
}

static int read_ranges(protolink_pool *pool)
{
    uint32_t all = item_of(pool, "trial.told.All").index;
    uint32_t state = item_of(pool, "trial.told.All.State").index;
    uint32_t order = item_of(pool, "trial.old.Order").index;
    protolink_range range;
    WANT(protolink_message_reserved_range(pool, all, 0, &range) == PROTOLINK_DONE);
    WANT(is_range(&range, 5, 6));
    WANT(protolink_message_reserved_range(pool, all, 1, &range) == PROTOLINK_DONE);
    WANT(is_range(&range, 8, 11));
    WANT(protolink_message_reserved_range(pool, all, 2, &range) == PROTOLINK_NOT_FOUND);
    WANT(protolink_enum_reserved_range(pool, state, 1, &range) == PROTOLINK_DONE);
    WANT(is_range(&range, 6, 8));
    WANT(protolink_message_extension_range(pool, order, 0, &range) == PROTOLINK_DONE);
    WANT(is_range(&range, 100, 200));
    WANT_TEXT(protolink_message_reserved_name(pool, all, 1, text, 64, &length), "past");
    WANT_TEXT(protolink_enum_reserved_name(pool, state, 0, text, 64, &length), "OLD");
    return 0;
}

static int read_lists(protolink_pool *pool)
{
    uint32_t all = item_of(pool, "trial.told.All").index;
    protolink_file_info info;
    uint32_t file, list[8];
    size_t length = 9;
    WANT(protolink_file_by_name(pool, as_bytes("told.proto"), 10, &file) == PROTOLINK_DONE);
    WANT(protolink_file_by_name(pool, as_bytes("gone.proto"), 10, list) == PROTOLINK_NOT_FOUND);
    WANT(protolink_file(pool, file, &info) == PROTOLINK_DONE && info.messages == 2);
    WANT(info.enums == 0 && info.services == 1 && info.extensions == 0);
    WANT(info.public_imports == 1 && info.is_deprecated == 1);
    WANT(protolink_file_items(pool, file, PROTOLINK_MESSAGE, list, 8, &length) == PROTOLINK_DONE);
    WANT(length == 2 && list[0] == all && list[1] == item_of(pool, "trial.told.Empty").index);
    WANT(protolink_file_items(pool, file, PROTOLINK_SERVICE, list, 8, &length) == PROTOLINK_DONE);
    WANT(length == 1 && list[0] == item_of(pool, "trial.told.Streams").index);
    WANT(protolink_file_items(pool, file, PROTOLINK_ENUM, list, 0, &length) == PROTOLINK_DONE);
    WANT(length == 0);
    WANT(protolink_message_items(pool, all, PROTOLINK_MESSAGE, list, 8, &length) == PROTOLINK_DONE);
    WANT(length == 2 && list[0] == item_of(pool, "trial.told.All.OrdersEntry").index);
    WANT(protolink_message_items(pool, all, PROTOLINK_MESSAGE, list, 1, &length)
         == PROTOLINK_SHORT);
    WANT(length == 2);
    WANT(protolink_message_items(pool, all, PROTOLINK_ENUM, list, 8, &length) == PROTOLINK_DONE);
    WANT(length == 1 && list[0] == item_of(pool, "trial.told.All.State").index);
    WANT(protolink_file_items(pool, file, PROTOLINK_FIELD, list, 8, &length)
         == PROTOLINK_NOT_FOUND);
    return 0;
}

static int read_sources(protolink_pool *pool)
{
    protolink_item all = item_of(pool, "trial.told.All");
    protolink_item number = item_of(pool, "trial.told.All.number");
    protolink_item names = item_of(pool, "trial.told.All.names");
    protolink_item empty = item_of(pool, "trial.told.Empty");
    int32_t numbers[4];
    uint8_t none[1];
    size_t length;
    WANT_TEXT(protolink_leading_comments(pool, &all, text, 64, &length), " Before All.\n");
    WANT_TEXT(protolink_detached_comments(pool, &all, 0, text, 64, &length), " By itself.\n");
    WANT_TEXT(protolink_trailing_comments(pool, &number, text, 64, &length), " Behind number.\n");
    WANT_TEXT(protolink_options(pool, &names, text, 64, &length), "\x18\x01");
    WANT_TEXT(protolink_options(pool, &empty, text, 64, &length), "");
    WANT(protolink_span(pool, &empty, numbers, 4, &length) == PROTOLINK_DONE && length == 3);
    WANT(numbers[0] == 32 && numbers[1] == 0 && numbers[2] == 16);
    WANT(protolink_path(pool, &number, numbers, 4, &length) == PROTOLINK_DONE && length == 4);
    WANT(numbers[0] == 4 && numbers[1] == 0 && numbers[2] == 2 && numbers[3] == 1);
    WANT(protolink_leading_comments(pool, &empty, none, 0, &length) == PROTOLINK_NOT_FOUND);
    return 0;
}

int main(int argc, char **argv)
{
    int (*trials[])(protolink_pool *) = { read_fields, read_message, read_enum, read_service,
                                          read_ranges, read_lists, read_sources };
    protolink_pool pool = PROTOLINK_POOL_EMPTY;
    FILE *file = argc > 1 ? fopen(argv[1], "rb") : NULL;
    int status = 0;
    WANT(file != NULL);
    size_t len = fread(set, 1, sizeof set, file);
    fclose(file);
    WANT(protolink_pool_add_set(&pool, set, len) == PROTOLINK_DONE);
    for (size_t n = 0; n < sizeof trials / sizeof *trials && status == 0; n++)
        status = trials[n](&pool);
    protolink_pool_clear(&pool);
    return status;
}
