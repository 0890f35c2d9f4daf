// Asks a pool by protolink.hpp, each of its calls at least once. tools/library makes the set of
// `told.proto` that its argument names, builds this and runs it. Exit status: 0, or the line at
// which an answer was wrong.
#include <protolink.hpp>

#include <algorithm>
#include <fstream>
#include <iterator>
#include <string>

#define WANT(condition)            \
    do {                           \
        if (!(condition))          \
            return __LINE__ % 256; \
    } while (0)

namespace {

using namespace protolink;

int read_files(const Pool &pool)
{
    const std::optional<File> told = pool.file("told.proto");
    WANT(told && told->name() == "told.proto" && told->package() == "trial.told");
    WANT(told->info().is_deprecated == 1 && told->options() == "\xb8\x01\x01");
    WANT(told->imports().size() == 1 && told->imports()[0] == *pool.file("old.proto"));
    WANT(told->messages().size() == 2 && told->messages()[0].name() == "All");
    WANT(told->enums().empty() && told->extensions().empty());
    WANT(told->services().size() == 1 && !pool.file("") && !pool.message(""));
    WANT(pool.files().size() == pool.counts().files && told->linked()->size() > 100);
    return 0;
}

int read_messages(const Pool &pool)
{
    const std::optional<Message> all = pool.message("trial.told.All");
    WANT(all && all->full_name() == "trial.told.All" && all->info().is_deprecated == 1);
    WANT(all->nested_messages().size() == 2 && all->nested_enums().size() == 1);
    WANT(all->nested_extensions().empty() && all->extension_ranges().empty());
    WANT(all->reserved_ranges()[1].end == 11 && all->reserved_names()[0] == "gone");
    WANT(all->oneofs()[1].info().is_synthetic == 1);
    WANT(all->oneofs()[1].fields()[0] == *all->field("number"));
    WANT(all->leading_comments() == " Before All.\n" && !all->trailing_comments());
    WANT(all->detached_comments().size() == 1 && all->span()->size() == 4);
    const std::optional<Field> orders = all->field(1);
    WANT(orders && orders->info().is_map == 1 && !orders->type_enum() && !orders->default_value());
    WANT(orders->type_message()->info().is_map_entry == 1 && orders->json_name() == "orders");
    WANT(*all->field_by_json_name("orders") == *orders && orders->path().size() == 4);
    WANT(all->field("names")->options() == "\x18\x01" && !all->field("gone") && !all->field(99));
    size_t count = 0;
    for (const Field &field : all->fields())
        count += field.pool().get() == pool.get() && field.position() == count;
    WANT(count == 5 && pool.messages().size() == pool.counts().messages);
    return 0;
}

int read_others(const Pool &pool)
{
    const std::optional<Enum> state = pool.enumeration("trial.told.All.State");
    WANT(state && state->values().size() == 3 && state->value(-1)->name() == "LESS");
    WANT(state->value("ONE")->number() == 1 && !state->value(2) && !state->value("TWO"));
    WANT(state->reserved_ranges()[0].start == 4 && state->reserved_names()[0] == "OLD");
    const std::optional<Extension> note = pool.extension("trial.old.note");
    WANT(note && note->extendee() == *pool.message("trial.old.Order"));
    WANT(note->default_value() == "none" && !note->type_message() && !note->type_enum());
    WANT(*note->extendee().extension(100) == *note && !note->extendee().extension(199));
    WANT(note->extendee().extensions().size() == 2 && note->info().number == 100);
    const std::optional<Service> streams = pool.service("trial.told.Streams");
    WANT(streams && streams->methods().size() == 3 && streams->info().is_deprecated == 1);
    const std::optional<Method> up = streams->method("Up");
    WANT(up && up->info().client_streaming == 1 && up->output().name() == "Empty");
    WANT(up->input() != up->output() && !streams->method("Left"));
    WANT(pool.find("trial.told.All.number")->kind == PROTOLINK_FIELD);
    WANT(pool.find_path("trial.told.All")->size() == 3 && !pool.find_path("gone"));
    WANT(pool.enums().size() == pool.counts().enums && pool.services().size() == 1);
    WANT(pool.extensions().size() == pool.counts().extensions);
    return 0;
}

/* A field that is added changes nothing in either direction. */
bool has_directions()
{
    const std::string before = "file m.proto\nmessage M\nfield a 1 optional int32 ~ ~\n";
    Pool old_pool, new_pool;
    old_pool.add_script(before + "end\nend\n");
    new_pool.add_script(before + "field b 2 optional int32 ~ ~\nend\nend\n");
    const auto has = [&](Compatibility compatibility, std::string_view part) {
        const auto text = new_pool.changes(old_pool, Level::wire, compatibility);
        return text && text->find(part) != std::string::npos;
    };
    return has(Compatibility::forward, "\"direction\":\"forward\",\"count\":0,\"more\":0")
        && has(Compatibility::forward, "\"changes\":[],\"verdict\"")
        && has(Compatibility::full, "\"direction\":\"backward\",\"count\":0")
        && has(Compatibility::full, "\"direction\":\"forward\",\"count\":0")
        && old_pool.changes(new_pool)->find("number-free") != std::string::npos;
}

/* Whether a text for which there is room is asked for once, and any other twice; and whether it
   keeps no more room than it needs. */
bool asked_once()
{
    size_t calls = 0;
    const std::string told(5000, 'a');
    const auto call = [&](uint8_t *buffer, size_t room, size_t *length) {
        calls++;
        *length = told.size();
        if (room < told.size())
            return protolink_status(PROTOLINK_SHORT);
        std::copy(told.begin(), told.end(), buffer);
        return protolink_status(PROTOLINK_DONE);
    };
    const auto once = protolink::detail::text_of(call, protolink::detail::changes_room);
    const bool is_once = calls == 1 && once == told;
    return is_once && once->capacity() < told.size() + protolink::detail::spare_room
        && protolink::detail::text_of(call) == told && calls == 3;
}

int read_pools(Pool *pool)
{
    std::optional<Pool> copy = pool->clone();
    WANT(copy && copy->counts().files == pool->counts().files);
    WANT(copy->changes(*pool, Level::source)->find("\"changes\":[]") != std::string::npos);
    WANT(copy->changes(*pool)->capacity() < 2 * protolink::detail::spare_room);
    WANT(has_directions());
    Pool other = std::move(*copy);
    WANT(other.add_set(*pool->linked()) == Status::done && other.report().empty());
    WANT(other.added().passed_over == pool->counts().files && other.added().differing == 0);
    WANT(other.limit_faults(1) == Status::done);
    WANT(other.add_script("file x.proto\nimport y.proto\nend\n") == Status::refused);
    WANT(!other.report().empty() && other.report_json().front() == '{');
    WANT(other.add_file("\x0a") == Status::fault && other.add_set("") == Status::done);
    Pool batch;
    std::vector<std::string> files;
    for (const File &file : pool->files())
        files.insert(files.begin(), *file.linked());
    WANT(batch.add_files({ files.begin(), files.end() }) == Status::done);
    WANT(batch.counts().files == pool->counts().files && batch.add_files({}) == Status::done);
    WANT(asked_once());
    *pool = std::move(other);
    pool->clear();
    WANT(pool->counts().files == 0 && pool->files().empty());
    return 0;
}

} // namespace

int main(int argc, char **argv)
{
    WANT(argc == 2);
    std::ifstream input(argv[1], std::ios::binary);
    const std::string bytes((std::istreambuf_iterator<char>(input)), {});
    Pool pool;
    WANT(pool.add_set(bytes) == Status::done);
    int status = read_files(pool);
    if (status == 0)
        status = read_messages(pool);
    if (status == 0)
        status = read_others(pool);
    return status != 0 ? status : read_pools(&pool);
}
