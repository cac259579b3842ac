// This repository's keeper, through its interface for C.
#include "../include/keeper.h"
#include "peer.h"
#include <algorithm>
#include <vector>

namespace {
class Keeper : public Peer {
public:
    const char *name() const override { return "keeper"; }
    void start_anew() override { std::fill(memory.begin(), memory.end(), 0); }
    size_t say(std::span<const Saying> sayings) override {
        size_t done = 0;
        for (const Saying &saying : sayings)
            done += say_one(saying).done;
        return done;
    }

private:
    KeeperAnswer say_one(const Saying &saying) {
        uint64_t *m = memory.data();
        uint64_t *o = out.data();
        switch (saying.kind) {
        case Kind::Comes:
            return keeper_comes(m, KEEPER_MEMORY, saying.a, o, KEEPER_OUTPUT);
        case Kind::Goes:
            return keeper_goes(m, KEEPER_MEMORY, saying.a, o, KEEPER_OUTPUT);
        case Kind::Link:
            return keeper_link(m, KEEPER_MEMORY, saying.a, saying.b, o, KEEPER_OUTPUT);
        default:
            return keeper_unlink(m, KEEPER_MEMORY, saying.a, saying.b, o, KEEPER_OUTPUT);
        }
    }

    std::vector<uint64_t> memory = std::vector<uint64_t>(KEEPER_MEMORY);
    std::vector<uint64_t> out = std::vector<uint64_t>(KEEPER_OUTPUT);
};
} // namespace

std::unique_ptr<Peer> make_keeper() { return std::make_unique<Keeper>(); }
