// Links descriptor sets, and prints each service with its methods, and `stream` where it stands.
//
//     c++ -std=c++17 services.cc $(pkg-config --cflags --libs protolink) -o services
//     protoc --include_imports -o set.pb shop/order.proto && ./services set.pb
//
// Exit status: 0 printed; 1 the files are refused; 2 no verdict, since a file cannot be read or is
// no set; 3 memory was refused; 4 the output could not be written.
#include <protolink.hpp>

#include <cstdio>
#include <fstream>
#include <iterator>
#include <string>

namespace {

using protolink::Message;
using protolink::Method;
using protolink::Pool;
using protolink::Service;
using protolink::Status;

// A side of a method as it is declared.
std::string side(const Message &message, bool is_stream)
{
    return (is_stream ? "(stream " : "(") + message.full_name() + ")";
}

void print(const Method &method)
{
    const protolink_method_info info = method.info();
    const std::string input = side(method.input(), info.client_streaming);
    const std::string output = side(method.output(), info.server_streaming);
    std::printf("  rpc %s%s returns %s;%s\n", method.name().c_str(), input.c_str(), output.c_str(),
                info.is_deprecated ? " // deprecated" : "");
}

void print(const Service &service)
{
    std::printf("service %s {\n", service.full_name().c_str());
    for (const Method &method : service.methods())
        print(method);
    std::puts("}");
}

// Links a set, and answers the exit status.
int add(Pool *pool, const char *name)
{
    std::ifstream input(name, std::ios::binary);
    const std::string bytes((std::istreambuf_iterator<char>(input)), {});
    if (!input.is_open() || input.bad()) {
        std::fprintf(stderr, "%s cannot be read\n", name);
        return 2;
    }
    const Status status = pool->add_set(bytes);
    if (status == Status::done)
        return 0;
    if (status == Status::no_memory) {
        std::fputs("memory was refused\n", stderr);
        return 3;
    }
    std::fputs(pool->report().c_str(), stderr);
    return status == Status::fault ? 2 : 1;
}

} // namespace

int main(int argc, char **argv)
{
    Pool pool;
    if (argc < 2) {
        std::fputs("usage: services SET..\n", stderr);
        return 2;
    }
    for (int n = 1; n < argc; n++) {
        if (const int status = add(&pool, argv[n]))
            return status;
    }
    for (const Service &service : pool.services())
        print(service);
    if (std::fflush(stdout) != 0 || std::ferror(stdout)) {
        std::fputs("the standard output could not be written\n", stderr);
        return 4;
    }
    return 0;
}
