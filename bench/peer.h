// What the harness asks of each keeper of an order that it measures.
#pragma once
#include <cstddef>
#include <cstdint>
#include <memory>
#include <span>

enum class Kind : uint64_t { Comes, Goes, Link, Unlink };

// A saying: `b` is read for links only.
struct Saying {
    Kind kind;
    uint64_t a;
    uint64_t b;
};

class Peer {
public:
    virtual ~Peer() = default;
    virtual const char *name() const = 0;
    // Forgets all, in memory that is as after a fresh start.
    virtual void start_anew() = 0;
    // Says them all, cards by their numbers; how many weren't refused.
    virtual size_t say(std::span<const Saying> sayings) = 0;
};

std::unique_ptr<Peer> make_keeper();
std::unique_ptr<Peer> make_abseil();
std::unique_ptr<Peer> make_pearce_kelly();
std::unique_ptr<Peer> make_jgrapht();
