/*
 * protolink.hpp: protolink.h for C++17, all of it inline. No exception is thrown: the header may be
 * compiled with -fno-exceptions.
 *
 *     protolink::Pool pool;
 *     if (pool.add_set(bytes) != protolink::Status::done)
 *         std::fputs(pool.report().c_str(), stderr);
 *     for (protolink::Service service : pool.services())
 *         for (protolink::Method method : service.methods())
 *             use(method.full_name(), method.info().server_streaming);
 *
 * A pool is freed with its scope, and may be moved and not copied, but by `clone`. What is asked of
 * it are small values that know the pool: a Message, a Field, .. They may be copied, and are of use
 * as long as the pool stays where it is and is not cleared. Their indexes and positions are those
 * of protolink.h, whose notes hold here too: what `info` has, how texts are encoded.
 *
 * What may be missing comes as a std::optional, a text as a std::string. Where memory is refused
 * for a std::string or a std::vector, C++ decides: without exceptions it ends the program. A list
 * is empty where the library itself is refused the memory for it.
 */
#ifndef PROTOLINK_HPP
#define PROTOLINK_HPP

#include <protolink.h>

#include <cstddef>
#include <cstdint>
#include <optional>
#include <string>
#include <string_view>
#include <utility>
#include <vector>

namespace protolink {

/* How a call ended. */
enum class Status : protolink_status {
    done = PROTOLINK_DONE,
    refused = PROTOLINK_REFUSED,
    fault = PROTOLINK_FAULT,
    no_memory = PROTOLINK_NO_MEMORY,
    too_short = PROTOLINK_SHORT,
    too_many = PROTOLINK_TOO_MANY,
    not_found = PROTOLINK_NOT_FOUND
};

/* At which level two pools are compared. */
enum class Level : uint32_t {
    wire = PROTOLINK_LEVEL_WIRE,
    json = PROTOLINK_LEVEL_JSON,
    source = PROTOLINK_LEVEL_SOURCE
};

/* Which of two pools is to read what the other writes. */
enum class Compatibility : uint32_t {
    backward = PROTOLINK_COMPATIBILITY_BACKWARD,
    forward = PROTOLINK_COMPATIBILITY_FORWARD,
    full = PROTOLINK_COMPATIBILITY_FULL
};

class Pool;
class File;
class Message;
class Field;
class Oneof;
class Enum;
class EnumValue;
class Service;
class Method;
class Extension;

namespace detail {

/* The bytes of a text. */
inline const uint8_t *bytes_of(std::string_view text)
{
    return reinterpret_cast<const uint8_t *>(text.data());
}

/* What a call writes to a buffer, where it is done. */
template <typename Element, typename Call> std::optional<std::vector<Element>> list_of(Call call)
{
    std::vector<Element> list(8);
    size_t length = 0;
    protolink_status status = call(list.data(), list.size(), &length);
    while (status == PROTOLINK_SHORT) {
        list.resize(length);
        status = call(list.data(), list.size(), &length);
    }
    if (status != PROTOLINK_DONE)
        return std::nullopt;
    list.resize(length);
    return list;
}

/* Room in which most names have place, and most texts of changes; and how much room a text may keep
   that it does not need. */
constexpr size_t name_room = 64;
constexpr size_t changes_room = 16384;
constexpr size_t spare_room = 1024;

/* The same as a text. A call is made again where the room is too short. */
template <typename Call> std::optional<std::string> text_of(Call call, size_t room = name_room)
{
    std::string text(room, '\0');
    size_t length = 0;
    const auto once = [&] {
        return call(reinterpret_cast<uint8_t *>(&text[0]), text.size(), &length);
    };
    protolink_status status = once();
    while (status == PROTOLINK_SHORT) {
        text.resize(length);
        status = once();
    }
    if (status != PROTOLINK_DONE)
        return std::nullopt;
    text.resize(length);
    if (room > length + spare_room)
        text.shrink_to_fit();
    return text;
}

/* What a call writes to a place, where it is done. */
template <typename Value, typename Call> std::optional<Value> value_of(Call call)
{
    Value value = {};
    if (call(&value) != PROTOLINK_DONE)
        return std::nullopt;
    return value;
}

} // namespace detail

/* What is at the positions from 0 up to a count, made as it is asked for. `Make` makes it of a
   position. */
template <typename Make> class Range {
public:
    class Iterator {
    public:
        Iterator(const Make *make, uint32_t at) : make_(make), at_(at) {}
        auto operator*() const { return (*make_)(at_); }
        Iterator &operator++()
        {
            at_++;
            return *this;
        }
        bool operator==(const Iterator &other) const { return at_ == other.at_; }
        bool operator!=(const Iterator &other) const { return at_ != other.at_; }

    private:
        const Make *make_;
        uint32_t at_;
    };

    Range(Make make, uint64_t count) : make_(std::move(make)), count_(uint32_t(count)) {}
    Iterator begin() const { return Iterator(&make_, 0); }
    Iterator end() const { return Iterator(&make_, count_); }
    size_t size() const { return count_; }
    bool empty() const { return count_ == 0; }
    auto operator[](size_t position) const { return make_(uint32_t(position)); }

private:
    Make make_;
    uint32_t count_;
};

/* A pool, which is freed with its scope. */
class Pool {
public:
    Pool() = default;
    Pool(const Pool &) = delete;
    Pool &operator=(const Pool &) = delete;
    Pool(Pool &&other) noexcept : Pool() { *this = std::move(other); }
    Pool &operator=(Pool &&other) noexcept
    {
        std::swap(pool_.at, other.pool_.at);
        std::swap(linked_room_, other.linked_room_);
        return *this;
    }
    ~Pool() { protolink_pool_clear(&pool_); }

    /* Links the files of a FileDescriptorSet, of one FileDescriptorProto, of several as one batch,
       of a script. */
    Status add_set(std::string_view bytes)
    {
        const uint8_t *at = detail::bytes_of(bytes);
        return grown(protolink_pool_add_set(&pool_, at, bytes.size()), bytes.size());
    }
    Status add_file(std::string_view bytes)
    {
        const uint8_t *at = detail::bytes_of(bytes);
        return grown(protolink_pool_add_file(&pool_, at, bytes.size()), bytes.size());
    }
    Status add_files(const std::vector<std::string_view> &files)
    {
        std::string bytes;
        std::vector<size_t> lens;
        for (std::string_view file : files) {
            bytes.append(file);
            lens.push_back(file.size());
        }
        const uint8_t *at = detail::bytes_of(bytes);
        const protolink_status status =
            protolink_pool_add_files(&pool_, at, bytes.size(), lens.data(), lens.size());
        return grown(status, bytes.size());
    }
    Status add_script(std::string_view script)
    {
        const uint8_t *at = detail::bytes_of(script);
        return grown(protolink_pool_add_script(&pool_, at, script.size()), script.size());
    }

    /* How many faults the reports have at most, from the next call on. */
    Status limit_faults(size_t most) { return Status(protolink_pool_limit_faults(&pool_, most)); }

    /* Frees what it owns. */
    void clear()
    {
        protolink_pool_clear(&pool_);
        linked_room_ = 0;
    }

    /* A copy, or none where memory was refused. */
    std::optional<Pool> clone() const
    {
        Pool copy;
        if (protolink_pool_clone(&pool_, &copy.pool_) != PROTOLINK_DONE)
            return std::nullopt;
        copy.linked_room_ = linked_room_;
        return copy;
    }

    /* What became of the files of the last call that was to link some, where it was done. */
    protolink_added added() const
    {
        protolink_added added = {};
        protolink_pool_added(&pool_, &added);
        return added;
    }

    /* The report of the last call that was to link files: in lines, and as an object of JSON. */
    std::string report() const
    {
        return whole([&](auto... to) { return protolink_pool_report(&pool_, to...); });
    }
    std::string report_json() const
    {
        return whole([&](auto... to) { return protolink_pool_report_json(&pool_, to...); });
    }

    /* What it changes of an older pool, as an object of JSON; none where memory was refused. */
    std::optional<std::string> changes(
        const Pool &older, Level level = Level::wire,
        Compatibility compatibility = Compatibility::backward) const
    {
        const auto call = [&](auto... to) {
            return protolink_pool_changes(
                &pool_, &older.pool_, uint32_t(level), uint32_t(compatibility), to...);
        };
        return detail::text_of(call, detail::changes_room);
    }

    /* All linked files, as the bytes of a FileDescriptorSet; none where memory was refused. */
    std::optional<std::string> linked() const
    {
        const auto call = [&](auto... to) { return protolink_pool_linked(&pool_, to...); };
        return detail::text_of(call, linked_room_);
    }

    /* How much it has of each kind that has indexes. */
    protolink_counts counts() const
    {
        protolink_counts counts = {};
        protolink_pool_counts(&pool_, &counts);
        return counts;
    }

    /* What a full name means, and the path of where it is declared. */
    std::optional<protolink_item> find(std::string_view name) const
    {
        uint32_t file = PROTOLINK_NONE;
        return detail::value_of<protolink_item>([&](protolink_item *item) {
            return protolink_pool_find(&pool_, detail::bytes_of(name), name.size(), item, &file);
        });
    }
    std::optional<std::vector<int32_t>> find_path(std::string_view name) const
    {
        return detail::list_of<int32_t>([&](auto... to) {
            return protolink_pool_find_path(&pool_, detail::bytes_of(name), name.size(), to...);
        });
    }

    /* What has a name: a file by that of the file, the others by their full names. */
    std::optional<File> file(std::string_view name) const;
    std::optional<Message> message(std::string_view full_name) const;
    std::optional<Enum> enumeration(std::string_view full_name) const;
    std::optional<Service> service(std::string_view full_name) const;
    std::optional<Extension> extension(std::string_view full_name) const;

    /* All that it has of a kind, in the order of linking. */
    auto files() const;
    auto messages() const;
    auto enums() const;
    auto services() const;
    auto extensions() const;

    /* The pool of protolink.h, which is this one's still. */
    protolink_pool *get() { return &pool_; }
    const protolink_pool *get() const { return &pool_; }

private:
    template <typename Call> static std::string whole(Call call)
    {
        return detail::text_of(call).value_or(std::string());
    }

    std::optional<uint32_t> index_of(std::string_view full_name, uint32_t kind) const
    {
        const std::optional<protolink_item> item = find(full_name);
        if (!item || item->kind != kind)
            return std::nullopt;
        return item->index;
    }

    /* Notes about how long the linked files are: as long as the bytes of those that were added. */
    Status grown(protolink_status status, size_t len)
    {
        if (status == PROTOLINK_DONE && added().passed_over == 0)
            linked_room_ += len;
        return Status(status);
    }

    protolink_pool pool_ = PROTOLINK_POOL_EMPTY;
    size_t linked_room_ = 0;
};

/* What is in a pool at an index, or at a position of what has an index. */
class Item {
public:
    Item(const Pool &pool, protolink_item item) : pool_(&pool), item_(item) {}

    const Pool &pool() const { return *pool_; }
    protolink_item item() const { return item_; }
    uint32_t index() const { return item_.index; }
    uint32_t position() const { return item_.position; }

    /* The name as it is declared, and the full name without a leading dot. */
    std::string name() const { return text(protolink_name).value_or(std::string()); }
    std::string full_name() const { return text(protolink_full_name).value_or(std::string()); }

    /* The bytes of its options: none where it has none. */
    std::string options() const { return text(protolink_options).value_or(std::string()); }

    /* The path in the record of its file, and the place in the source that protolink_span gives. */
    std::vector<int32_t> path() const
    {
        return numbers(protolink_path).value_or(std::vector<int32_t>());
    }
    std::optional<std::vector<int32_t>> span() const { return numbers(protolink_span); }

    /* The comments right before it, right after it, and those before it by themselves. */
    std::optional<std::string> leading_comments() const { return text(protolink_leading_comments); }
    std::optional<std::string> trailing_comments() const
    {
        return text(protolink_trailing_comments);
    }
    std::vector<std::string> detached_comments() const
    {
        std::vector<std::string> all;
        while (true) {
            std::optional<std::string> next = detail::text_of([&](auto... to) {
                return protolink_detached_comments(at(), &item_, uint32_t(all.size()), to...);
            });
            if (!next)
                return all;
            all.push_back(std::move(*next));
        }
    }

    friend bool operator==(const Item &one, const Item &other)
    {
        return one.pool_ == other.pool_ && one.item_.kind == other.item_.kind
            && one.item_.index == other.item_.index && one.item_.position == other.item_.position;
    }
    friend bool operator!=(const Item &one, const Item &other) { return !(one == other); }

protected:
    const protolink_pool *at() const { return pool_->get(); }

    template <typename Call> std::optional<std::string> text(Call call) const
    {
        return detail::text_of([&](auto... to) { return call(at(), &item_, to...); });
    }
    template <typename Call> std::optional<std::vector<int32_t>> numbers(Call call) const
    {
        return detail::list_of<int32_t>([&](auto... to) { return call(at(), &item_, to...); });
    }

    /* What a call gives of what has the index. */
    template <typename Info, typename Call> Info whole_info(Call call) const
    {
        Info info = {};
        call(at(), item_.index, &info);
        return info;
    }

    /* What a call gives of what has the position there. */
    template <typename Info, typename Call> Info part_info(Call call) const
    {
        Info info = {};
        call(at(), item_.index, item_.position, &info);
        return info;
    }

    /* What a call that hands out texts by position has, of what has the index. */
    template <typename Call> std::vector<std::string> texts(Call call, uint64_t count) const
    {
        std::vector<std::string> all;
        for (uint32_t position = 0; position < count; position++)
            all.push_back(detail::text_of([&](auto... to) {
                              return call(at(), item_.index, position, to...);
                          }).value_or(std::string()));
        return all;
    }

    /* The ranges of numbers of what has the index. */
    template <typename Call> std::vector<protolink_range> ranges(Call call, uint64_t count) const
    {
        std::vector<protolink_range> all(count);
        for (uint32_t position = 0; position < count; position++)
            call(at(), item_.index, position, &all[position]);
        return all;
    }

    /* The items of a kind that a call lists below what has the index. */
    template <typename Below, typename Call>
    std::vector<Below> below(Call call, uint32_t kind) const
    {
        std::vector<Below> all;
        const auto indexes = detail::list_of<uint32_t>(
            [&](auto... to) { return call(at(), item_.index, kind, to...); });
        if (indexes)
            for (uint32_t index : *indexes)
                all.emplace_back(*pool_, index);
        return all;
    }

    const Pool *pool_;
    protolink_item item_;
};

/* A value of an enum. */
class EnumValue : public Item {
public:
    EnumValue(const Pool &pool, uint32_t enumeration, uint32_t position)
        : Item(pool, { PROTOLINK_ENUM_VALUE, enumeration, position })
    {
    }

    protolink_enum_value_info info() const
    {
        return part_info<protolink_enum_value_info>(protolink_enum_value);
    }
    int32_t number() const { return info().number; }
};

/* An enum. */
class Enum : public Item {
public:
    Enum(const Pool &pool, uint32_t index) : Item(pool, { PROTOLINK_ENUM, index, 0 }) {}

    protolink_enum_info info() const { return whole_info<protolink_enum_info>(protolink_enum); }
    auto values() const
    {
        return Range([pool = pool_, index = index()](uint32_t n) {
            return EnumValue(*pool, index, n);
        }, info().values);
    }
    std::optional<EnumValue> value(std::string_view name) const
    {
        return part([&](uint32_t *position) {
            return protolink_enum_value_by_name(at(), index(), detail::bytes_of(name), name.size(),
                                                position);
        });
    }
    std::optional<EnumValue> value(int32_t number) const
    {
        return part([&](uint32_t *position) {
            return protolink_enum_value_by_number(at(), index(), number, position);
        });
    }
    std::vector<protolink_range> reserved_ranges() const
    {
        return ranges(protolink_enum_reserved_range, info().reserved_ranges);
    }
    std::vector<std::string> reserved_names() const
    {
        return texts(protolink_enum_reserved_name, info().reserved_names);
    }

private:
    template <typename Call> std::optional<EnumValue> part(Call call) const
    {
        const auto position = detail::value_of<uint32_t>(call);
        if (!position)
            return std::nullopt;
        return EnumValue(*pool_, index(), *position);
    }
};

/* What fields and extensions have alike. */
class AnyField : public Item {
public:
    using Item::Item;

    /* The name in JSON, if one was given. */
    std::optional<std::string> json_name() const { return text(protolink_json_name); }

    /* The default value as protolink_default writes it, if one was given. */
    std::optional<std::string> default_value() const { return text(protolink_default); }

protected:
    std::optional<Enum> enum_of(uint32_t kind, uint32_t type_index) const
    {
        if (kind != PROTOLINK_TYPE_ENUM)
            return std::nullopt;
        return Enum(*pool_, type_index);
    }
    std::optional<Message> message_of(uint32_t kind, uint32_t type_index) const;
};

/* A field of a message. */
class Field : public AnyField {
public:
    Field(const Pool &pool, uint32_t message, uint32_t position)
        : AnyField(pool, { PROTOLINK_FIELD, message, position })
    {
    }

    protolink_field_info info() const { return part_info<protolink_field_info>(protolink_field); }

    /* The message or the enum that is its type, if it is one. */
    std::optional<Message> type_message() const;
    std::optional<Enum> type_enum() const
    {
        const protolink_field_info it = info();
        return enum_of(it.kind, it.type_index);
    }
};

/* A oneof of a message. */
class Oneof : public Item {
public:
    Oneof(const Pool &pool, uint32_t message, uint32_t position)
        : Item(pool, { PROTOLINK_ONEOF, message, position })
    {
    }

    protolink_oneof_info info() const { return part_info<protolink_oneof_info>(protolink_oneof); }
    auto fields() const
    {
        return Range([pool = pool_, item = item_](uint32_t n) {
            uint32_t position = PROTOLINK_NONE;
            protolink_oneof_field(pool->get(), item.index, item.position, n, &position);
            return Field(*pool, item.index, position);
        }, info().fields);
    }
};

/* An extension. */
class Extension : public AnyField {
public:
    Extension(const Pool &pool, uint32_t index) : AnyField(pool, { PROTOLINK_EXTENSION, index, 0 })
    {
    }

    protolink_extension_info info() const
    {
        return whole_info<protolink_extension_info>(protolink_extension);
    }

    /* The message that it extends, and the one or the enum that is its type, if it is one. */
    Message extendee() const;
    std::optional<Message> type_message() const;
    std::optional<Enum> type_enum() const
    {
        const protolink_extension_info it = info();
        return enum_of(it.kind, it.type_index);
    }
};

/* A message. */
class Message : public Item {
public:
    Message(const Pool &pool, uint32_t index) : Item(pool, { PROTOLINK_MESSAGE, index, 0 }) {}

    protolink_message_info info() const
    {
        return whole_info<protolink_message_info>(protolink_message);
    }
    auto fields() const
    {
        return Range([pool = pool_, index = index()](uint32_t n) {
            return Field(*pool, index, n);
        }, info().fields);
    }
    auto oneofs() const
    {
        return Range([pool = pool_, index = index()](uint32_t n) {
            return Oneof(*pool, index, n);
        }, info().oneofs);
    }

    /* The field with a name, a JSON name, a number. */
    std::optional<Field> field(std::string_view name) const
    {
        return part([&](uint32_t *position) {
            return protolink_field_by_name(at(), index(), detail::bytes_of(name), name.size(),
                                           position);
        });
    }
    std::optional<Field> field_by_json_name(std::string_view name) const
    {
        return part([&](uint32_t *position) {
            return protolink_field_by_json_name(at(), index(), detail::bytes_of(name), name.size(),
                                                position);
        });
    }
    std::optional<Field> field(uint32_t number) const
    {
        return part([&](uint32_t *position) {
            return protolink_field_by_number(at(), index(), number, position);
        });
    }

    /* The extension of the message with a number, and all that extend it. */
    std::optional<Extension> extension(uint32_t number) const
    {
        const auto found = detail::value_of<uint32_t>([&](uint32_t *extension) {
            return protolink_pool_extension(at(), index(), number, extension);
        });
        if (!found)
            return std::nullopt;
        return Extension(*pool_, *found);
    }
    auto extensions() const
    {
        return Range([pool = pool_, index = index()](uint32_t n) {
            uint32_t extension = PROTOLINK_NONE;
            protolink_message_extension(pool->get(), index, n, &extension);
            return Extension(*pool, extension);
        }, info().extensions);
    }

    /* What is declared in it, without what is declared in one of its messages. */
    std::vector<Message> nested_messages() const
    {
        return below<Message>(protolink_message_items, PROTOLINK_MESSAGE);
    }
    std::vector<Enum> nested_enums() const
    {
        return below<Enum>(protolink_message_items, PROTOLINK_ENUM);
    }
    std::vector<Extension> nested_extensions() const
    {
        return below<Extension>(protolink_message_items, PROTOLINK_EXTENSION);
    }

    std::vector<protolink_range> extension_ranges() const
    {
        return ranges(protolink_message_extension_range, info().extension_ranges);
    }
    std::vector<protolink_range> reserved_ranges() const
    {
        return ranges(protolink_message_reserved_range, info().reserved_ranges);
    }
    std::vector<std::string> reserved_names() const
    {
        return texts(protolink_message_reserved_name, info().reserved_names);
    }

private:
    template <typename Call> std::optional<Field> part(Call call) const
    {
        const auto position = detail::value_of<uint32_t>(call);
        if (!position)
            return std::nullopt;
        return Field(*pool_, index(), *position);
    }
};

/* A method of a service. */
class Method : public Item {
public:
    Method(const Pool &pool, uint32_t service, uint32_t position)
        : Item(pool, { PROTOLINK_METHOD, service, position })
    {
    }

    protolink_method_info info() const
    {
        return part_info<protolink_method_info>(protolink_method);
    }

    /* The messages that it takes and gives. */
    Message input() const { return Message(*pool_, info().input); }
    Message output() const { return Message(*pool_, info().output); }
};

/* A service. */
class Service : public Item {
public:
    Service(const Pool &pool, uint32_t index) : Item(pool, { PROTOLINK_SERVICE, index, 0 }) {}

    protolink_service_info info() const
    {
        return whole_info<protolink_service_info>(protolink_service);
    }
    auto methods() const
    {
        return Range([pool = pool_, index = index()](uint32_t n) {
            return Method(*pool, index, n);
        }, info().methods);
    }
    std::optional<Method> method(std::string_view name) const
    {
        const auto position = detail::value_of<uint32_t>([&](uint32_t *found) {
            return protolink_method_by_name(at(), index(), detail::bytes_of(name), name.size(),
                                            found);
        });
        if (!position)
            return std::nullopt;
        return Method(*pool_, index(), *position);
    }
};

/* A file. */
class File {
public:
    File(const Pool &pool, uint32_t index) : pool_(&pool), index_(index) {}

    const Pool &pool() const { return *pool_; }
    uint32_t index() const { return index_; }
    protolink_file_info info() const
    {
        protolink_file_info info = {};
        protolink_file(pool_->get(), index_, &info);
        return info;
    }

    /* The name, the package, which is empty where there is none, and the bytes of the options. */
    std::string name() const { return text(protolink_file_name).value_or(std::string()); }
    std::string package() const { return text(protolink_file_package).value_or(std::string()); }
    std::string options() const { return text(protolink_file_options).value_or(std::string()); }

    /* The bytes of its linked FileDescriptorProto; none where memory was refused. */
    std::optional<std::string> linked() const { return text(protolink_pool_linked_file); }

    /* The files that it imports, in order. */
    auto imports() const
    {
        return Range([pool = pool_, index = index_](uint32_t n) {
            uint32_t imported = PROTOLINK_NONE;
            protolink_file_import(pool->get(), index, n, &imported);
            return File(*pool, imported);
        }, info().imports);
    }

    /* What is declared in it, and in no message. */
    std::vector<Message> messages() const { return below<Message>(PROTOLINK_MESSAGE); }
    std::vector<Enum> enums() const { return below<Enum>(PROTOLINK_ENUM); }
    std::vector<Service> services() const { return below<Service>(PROTOLINK_SERVICE); }
    std::vector<Extension> extensions() const { return below<Extension>(PROTOLINK_EXTENSION); }

    friend bool operator==(const File &one, const File &other)
    {
        return one.pool_ == other.pool_ && one.index_ == other.index_;
    }
    friend bool operator!=(const File &one, const File &other) { return !(one == other); }

private:
    template <typename Call> std::optional<std::string> text(Call call) const
    {
        return detail::text_of([&](auto... to) { return call(pool_->get(), index_, to...); });
    }
    template <typename Below> std::vector<Below> below(uint32_t kind) const
    {
        std::vector<Below> all;
        const auto indexes = detail::list_of<uint32_t>([&](auto... to) {
            return protolink_file_items(pool_->get(), index_, kind, to...);
        });
        if (indexes)
            for (uint32_t index : *indexes)
                all.emplace_back(*pool_, index);
        return all;
    }

    const Pool *pool_;
    uint32_t index_;
};

inline std::optional<Message> AnyField::message_of(uint32_t kind, uint32_t type_index) const
{
    if (kind != PROTOLINK_TYPE_MESSAGE && kind != PROTOLINK_TYPE_GROUP)
        return std::nullopt;
    return Message(*pool_, type_index);
}

inline std::optional<Message> Field::type_message() const
{
    const protolink_field_info it = info();
    return message_of(it.kind, it.type_index);
}

inline std::optional<Message> Extension::type_message() const
{
    const protolink_extension_info it = info();
    return message_of(it.kind, it.type_index);
}

inline Message Extension::extendee() const { return Message(*pool_, info().extendee); }

inline std::optional<File> Pool::file(std::string_view name) const
{
    const auto index = detail::value_of<uint32_t>([&](uint32_t *file) {
        return protolink_file_by_name(&pool_, detail::bytes_of(name), name.size(), file);
    });
    if (!index)
        return std::nullopt;
    return File(*this, *index);
}

inline std::optional<Message> Pool::message(std::string_view full_name) const
{
    const std::optional<uint32_t> index = index_of(full_name, PROTOLINK_MESSAGE);
    return index ? std::optional<Message>(Message(*this, *index)) : std::nullopt;
}

inline std::optional<Enum> Pool::enumeration(std::string_view full_name) const
{
    const std::optional<uint32_t> index = index_of(full_name, PROTOLINK_ENUM);
    return index ? std::optional<Enum>(Enum(*this, *index)) : std::nullopt;
}

inline std::optional<Service> Pool::service(std::string_view full_name) const
{
    const std::optional<uint32_t> index = index_of(full_name, PROTOLINK_SERVICE);
    return index ? std::optional<Service>(Service(*this, *index)) : std::nullopt;
}

inline std::optional<Extension> Pool::extension(std::string_view full_name) const
{
    const std::optional<uint32_t> index = index_of(full_name, PROTOLINK_EXTENSION);
    return index ? std::optional<Extension>(Extension(*this, *index)) : std::nullopt;
}

inline auto Pool::files() const
{
    return Range([this](uint32_t n) { return File(*this, n); }, counts().files);
}

inline auto Pool::messages() const
{
    return Range([this](uint32_t n) { return Message(*this, n); }, counts().messages);
}

inline auto Pool::enums() const
{
    return Range([this](uint32_t n) { return Enum(*this, n); }, counts().enums);
}

inline auto Pool::services() const
{
    return Range([this](uint32_t n) { return Service(*this, n); }, counts().services);
}

inline auto Pool::extensions() const
{
    return Range([this](uint32_t n) { return Extension(*this, n); }, counts().extensions);
}

} // namespace protolink

#endif
