// The server as a C++ class: it is open as long as it lives, and a refusal is an exception.
#pragma once
#include <cstdint>
#include <stdexcept>
#include <string>
#include <string_view>
#include <vestrulj.h>

struct Refused : std::runtime_error {
    osc_answer answer;
    explicit Refused(osc_answer answer) : std::runtime_error("OSC status " + std::to_string(answer.status)), answer(answer) {}
};

class Server {
    osc_server server = OSC_SERVER;

    static osc_answer accepted(osc_answer answer) {
        if (answer.status != OSC_OK) throw Refused(answer);
        return answer;
    }

  public:
    explicit Server(const osc_limits &limits) { accepted(osc_server_open(&server, &limits)); }
    ~Server() { osc_server_close(&server); }
    Server(const Server &) = delete;
    Server &operator=(const Server &) = delete;

    uint32_t add(std::string_view address) { return accepted(osc_server_add(&server, bytes(address), address.size())).number; }
    void remove(std::string_view address) { accepted(osc_server_remove(&server, bytes(address), address.size())); }
    osc_answer submit(std::string_view packet) { return accepted(osc_server_submit(&server, bytes(packet), packet.size())); }
    osc_answer tick(uint64_t moment) { return osc_server_tick(&server, moment); }

    // When the next unit is due, or 0 where none waits.
    uint64_t due() { return osc_server_due(&server).unit; }

    // Does all that is due, by handle(call, message) for each call. Answers when the next unit is due, or 0.
    template <typename Handle> uint64_t release_all(Handle handle) {
        static thread_local uint8_t message[65504];
        osc_answer answer;
        while ((answer = osc_server_release(&server)).status == OSC_OK)
            for (osc_call call; osc_server_next_call(&server, &call, message, sizeof message) == OSC_OK;)
                handle(call, std::string_view(reinterpret_cast<char *>(message), call.size));
        if (answer.status != OSC_NOTHING_DUE) throw Refused(answer);
        return answer.unit;
    }

    static const uint8_t *bytes(std::string_view text) { return reinterpret_cast<const uint8_t *>(text.data()); }
};
