// A plain Pearce-Kelly in Rust, which is in pearce_kelly.rs.
#include "peer.h"

extern "C" {
void *pearce_kelly_new();
void pearce_kelly_free(void *order);
size_t pearce_kelly_say(void *order, const Saying *sayings, size_t count);
}

namespace {
class PearceKelly : public Peer {
public:
    const char *name() const override { return "Pearce-Kelly in Rust"; }
    ~PearceKelly() override { pearce_kelly_free(order); }
    void start_anew() override {
        pearce_kelly_free(order);
        order = pearce_kelly_new();
    }
    size_t say(std::span<const Saying> sayings) override {
        return pearce_kelly_say(order, sayings.data(), sayings.size());
    }

private:
    void *order = pearce_kelly_new();
};
} // namespace

std::unique_ptr<Peer> make_pearce_kelly() { return std::make_unique<PearceKelly>(); }
