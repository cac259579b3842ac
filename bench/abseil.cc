// Abseil's GraphCycles. It keeps no row that could be read, and takes a link that is there already for done.
#include "absl/synchronization/internal/graphcycles.h"
#include "peer.h"

namespace {
using absl::synchronization_internal::GraphCycles;

class Abseil : public Peer {
public:
    const char *name() const override { return "Abseil"; }
    void start_anew() override { graph = std::make_unique<GraphCycles>(); }
    size_t say(std::span<const Saying> sayings) override {
        size_t done = 0;
        for (const Saying &saying : sayings)
            done += say_one(saying);
        return done;
    }

private:
    static void *pointer(uint64_t card) { return reinterpret_cast<void *>(card); }

    bool say_one(const Saying &saying) {
        switch (saying.kind) {
        case Kind::Comes:
            graph->GetId(pointer(saying.a));
            return true;
        case Kind::Goes:
            graph->RemoveNode(pointer(saying.a));
            return true;
        case Kind::Link:
            return graph->InsertEdge(graph->GetId(pointer(saying.a)), graph->GetId(pointer(saying.b)));
        default:
            graph->RemoveEdge(graph->GetId(pointer(saying.a)), graph->GetId(pointer(saying.b)));
            return true;
        }
    }

    std::unique_ptr<GraphCycles> graph;
};
} // namespace

std::unique_ptr<Peer> make_abseil() { return std::make_unique<Abseil>(); }
