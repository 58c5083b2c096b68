// The desk lamp of examples/c in C++:
//
//     c++ -std=c++17 lamp.cpp $(pkg-config --cflags --libs --static vestrulj) -o lamp && ./lamp 9001
#include <arpa/inet.h>
#include <chrono>
#include <climits>
#include <cstdio>
#include <cstring>
#include <functional>
#include <map>
#include <poll.h>
#include <sys/socket.h>

#include "server.hpp"

// The time as OSC has it: seconds since 1900 in 32 bits, and a fraction in 32.
static uint64_t now() {
    using namespace std::chrono;
    auto nanoseconds = (uint64_t)duration_cast<std::chrono::nanoseconds>(system_clock::now().time_since_epoch()).count();
    return (nanoseconds / 1000000000 + 2208988800) << 32 | (nanoseconds % 1000000000 << 32) / 1000000000;
}

static int milliseconds_until(uint64_t moment) {
    uint64_t from = now();
    if (moment == 0) return -1;
    if (moment <= from) return 0;
    uint64_t left = ((moment - from) >> 16) * 1000 >> 16;
    return left < INT_MAX ? (int)left + 1 : INT_MAX;
}

// The first argument of a message as a number, 1 where there is none.
static double value_in(std::string_view message) {
    osc_argument first;
    osc_answer answer = osc_message_read(Server::bytes(message), message.size(), &first, 1);
    if (answer.status != OSC_OK || answer.count == 0 || first.tag == 'T') return 1;
    auto word = (uint32_t)first.word;
    float number = 0;
    if (first.tag == 'i') return (int32_t)word;
    if (first.tag == 'f') std::memcpy(&number, &word, sizeof number);
    return number;
}

static void take(Server &server, int udp) try {
    static char bytes[65536];
    ssize_t size = recv(udp, bytes, sizeof bytes, MSG_DONTWAIT);
    if (size >= 0) server.submit({bytes, (size_t)size});
} catch (const Refused &why) {
    if (why.answer.status != OSC_BAD_PACKET) std::printf("no room: status %u\n", why.answer.status);
    else std::printf("no packet: fault %u at %u\n", why.answer.number, (unsigned)why.answer.unit);
}

static void run(int udp) {
    Server server({64, 256, 16, 32, 1, 1 << 24, false});
    bool is_plugged = true;
    std::map<uint32_t, std::function<void(double)>> methods;
    methods[server.add("/lamp/level")] = [](double value) { std::printf("level %.2f\n", value); };
    methods[server.add("/lamp/on")] = [](double value) { std::puts(value != 0 ? "on" : "off"); };
    methods[server.add("/lamp/unplug")] = [&](double) { std::puts("unplugged"), is_plugged = false; };

    for (uint64_t next = 0; is_plugged;) {
        pollfd wait = {udp, POLLIN, 0};
        poll(&wait, 1, milliseconds_until(next));
        server.tick(now());
        take(server, udp);
        next = server.release_all([&](const osc_call &call, std::string_view message) {
            if (is_plugged) methods[call.method](value_in(message));
        });
        std::fflush(stdout);
    }
}

int main(int count, char **words) try {
    sockaddr_in place = {};
    socklen_t size = sizeof place;
    place.sin_family = AF_INET;
    place.sin_port = htons((uint16_t)(count > 1 ? std::stoi(words[1]) : 0));
    int udp = socket(AF_INET, SOCK_DGRAM, 0);
    if (bind(udp, (sockaddr *)&place, size) != 0) throw std::runtime_error("the port is taken");
    getsockname(udp, (sockaddr *)&place, &size);
    std::printf("port %d\n", ntohs(place.sin_port));
    std::fflush(stdout);
    run(udp);
} catch (const std::exception &why) {
    std::fprintf(stderr, "lamp: %s\n", why.what());
    return 1;
}
