// Links descriptor sets, and hands the linked files to protobuf's own DescriptorPool.
//
//     c++ to_protobuf.cc $(pkg-config --cflags --libs protolink protobuf) -o to_protobuf
//     protoc --include_imports -o set.pb shop/order.proto && ./to_protobuf set.pb
//
// Exit status: 0 both pools have the same messages; 1 one of them refuses, or the two differ; 2 no
// verdict, since a file cannot be read or is no set; 3 memory was refused; 4 the output could not be
// written.
#include <protolink.h>

#include <google/protobuf/descriptor.h>
#include <google/protobuf/descriptor.pb.h>

#include <cstdint>
#include <fstream>
#include <iostream>
#include <new>
#include <string>
#include <utility>
#include <vector>

namespace {

// A pool that is cleared with its scope.
class Pool {
public:
    Pool() = default;
    Pool(const Pool &) = delete;
    Pool &operator=(const Pool &) = delete;
    ~Pool() { protolink_pool_clear(&pool_); }

    protolink_status add_set(const std::string &bytes)
    {
        return protolink_pool_add_set(&pool_, data(bytes), bytes.size());
    }

    std::string report()
    {
        return written([this](uint8_t *buffer, size_t room, size_t *length) {
            return protolink_pool_report(&pool_, buffer, room, length);
        });
    }

    // A linked file, as the bytes of its FileDescriptorProto.
    std::string linked_file(uint32_t index)
    {
        return written([this, index](uint8_t *buffer, size_t room, size_t *length) {
            return protolink_pool_linked_file(&pool_, index, buffer, room, length);
        });
    }

    // The full name of a message.
    std::string message_name(uint32_t index)
    {
        protolink_item item = { PROTOLINK_MESSAGE, index, 0 };
        return written([this, item](uint8_t *buffer, size_t room, size_t *length) {
            return protolink_full_name(&pool_, &item, buffer, room, length);
        });
    }

    uint64_t field_count(uint32_t message)
    {
        protolink_message_info info = {};
        protolink_message(&pool_, message, &info);
        return info.fields;
    }

    // The indexes of all files, each behind those that it imports, as BuildFile wants them.
    std::vector<uint32_t> imports_first()
    {
        std::vector<uint32_t> order;
        std::vector<bool> seen(counts().files);
        for (uint32_t file = 0; file < seen.size(); file++)
            add_behind_imports(file, &seen, &order);
        return order;
    }

    protolink_counts counts()
    {
        protolink_counts counts = {};
        protolink_pool_counts(&pool_, &counts);
        return counts;
    }

private:
    static const uint8_t *data(const std::string &bytes)
    {
        return reinterpret_cast<const uint8_t *>(bytes.data());
    }

    // Puts a file behind all that it imports. A chain of imports may be long, so this is no call
    // within a call: `open` has the files of a chain, each with how many of its imports are done.
    void add_behind_imports(uint32_t file, std::vector<bool> *seen, std::vector<uint32_t> *order)
    {
        std::vector<std::pair<uint32_t, uint32_t>> open;
        if (!(*seen)[file])
            open.push_back({file, 0});
        (*seen)[file] = true;
        while (!open.empty()) {
            uint32_t last = open.back().first, imported = 0;
            uint32_t next = open.back().second++;
            if (protolink_file_import(&pool_, last, next, &imported) != PROTOLINK_DONE) {
                order->push_back(last);
                open.pop_back();
            } else if (!(*seen)[imported]) {
                (*seen)[imported] = true;
                open.push_back({imported, 0});
            }
        }
    }

    // What a call writes to a buffer, or nothing where the pool does not have it.
    template <typename Call> static std::string written(Call call)
    {
        std::string text;
        size_t length = 0;
        protolink_status status;
        do {
            text.resize(length);
            status = call(reinterpret_cast<uint8_t *>(&text[0]), text.size(), &length);
        } while (status == PROTOLINK_SHORT);
        if (status == PROTOLINK_NO_MEMORY)
            throw std::bad_alloc();
        return text;
    }

    protolink_pool pool_ = PROTOLINK_POOL_EMPTY;
};

// Hands the linked files over, and compares the messages of the two pools.
bool hand_over(Pool *pool)
{
    google::protobuf::DescriptorPool theirs;
    for (uint32_t index : pool->imports_first()) {
        google::protobuf::FileDescriptorProto file;
        if (!file.ParseFromString(pool->linked_file(index)) || theirs.BuildFile(file) == nullptr) {
            std::cerr << "protobuf refuses " << file.name() << "\n";
            return false;
        }
    }
    for (uint32_t index = 0; index < pool->counts().messages; index++) {
        const std::string name = pool->message_name(index);
        const google::protobuf::Descriptor *message = theirs.FindMessageTypeByName(name);
        if (message == nullptr
            || static_cast<uint64_t>(message->field_count()) != pool->field_count(index)) {
            std::cerr << "the pools differ in " << name << "\n";
            return false;
        }
    }
    return true;
}

// Reads a file whole. What cannot be read, a folder too, is told.
bool read_whole(const char *name, std::string *bytes)
{
    std::ifstream input(name, std::ios::binary);
    char part[1 << 14];
    do {
        input.read(part, sizeof part);
        bytes->append(part, static_cast<size_t>(input.gcount()));
    } while (input.good());
    if (input.bad() || !input.eof()) {
        std::cerr << name << " cannot be read\n";
        return false;
    }
    return true;
}

// Links a set, and answers the exit status.
int add(Pool *pool, const char *name)
{
    std::string bytes;
    if (!read_whole(name, &bytes))
        return 2;
    const protolink_status status = pool->add_set(bytes);
    if (status == PROTOLINK_DONE)
        return 0;
    if (status == PROTOLINK_NO_MEMORY)
        throw std::bad_alloc();
    std::cerr << pool->report();
    return status == PROTOLINK_FAULT ? 2 : 1;
}

} // namespace

int main(int argc, char **argv)
try {
    Pool pool;
    if (argc < 2) {
        std::cerr << "usage: to_protobuf SET..\n";
        return 2;
    }
    for (int n = 1; n < argc; n++) {
        if (const int status = add(&pool, argv[n]))
            return status;
    }
    if (!hand_over(&pool))
        return 1;
    std::cout << pool.counts().files << " files, " << pool.counts().messages
              << " messages, the same in both pools" << std::endl;
    if (!std::cout) {
        std::cerr << "the standard output could not be written\n";
        return 4;
    }
    return 0;
} catch (const std::bad_alloc &) {
    std::cerr << "memory was refused\n";
    return 3;
}
