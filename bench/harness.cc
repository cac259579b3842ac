// Measures the keeper beside its peers: the same sayings to each, in turn, in one process, and the median of five rounds.
#include "workloads.h"
#include <algorithm>
#include <chrono>
#include <cstdio>
#include <cstdlib>

namespace {
using Clock = std::chrono::steady_clock;
using Peers = std::vector<std::unique_ptr<Peer>>;
constexpr int ROUNDS = 5;
constexpr size_t SAYINGS = 20000;

const char *HELP = "usage: harness [WORD]\n"
                   "\n"
                   "Measures each workload, or those whose name has the word in it, and prints a line for each, with tabs between: its name; how many\n"
                   "cards; how many sayings are timed, and how many of them weren't refused; for each peer, nanoseconds a saying, the median of five\n"
                   "rounds; and for each peer but the last, microseconds of its slowest saying. How far it is goes to standard error.\n";

double nanoseconds(Clock::duration time) { return std::chrono::duration<double, std::nano>(time).count(); }

// How many sayings weren't refused, and how long all took.
struct Round {
    size_t done;
    double time;
};

// A short workload is played up to ten times, each time on a fresh board, until so many sayings were timed.
Round play(Peer &peer, const Workload &work) {
    Round round = {0, 0};
    size_t times = std::clamp<size_t>(SAYINGS / work.timed.size(), 1, 10);
    for (size_t i = 0; i < times; i++) {
        peer.start_anew();
        peer.say(work.before);
        auto start = Clock::now();
        round.done = peer.say(work.timed);
        round.time += nanoseconds(Clock::now() - start) / static_cast<double>(times);
    }
    return round;
}

double median(std::vector<double> times) {
    std::sort(times.begin(), times.end());
    return times[times.size() / 2];
}

// The longest that a single saying takes. Each is timed in three rounds, and the shortest time counts, so that an interruption isn't taken for work.
double slowest(Peer &peer, const Workload &work) {
    std::vector<double> best(work.timed.size(), 1e18);
    for (int round = 0; round < 3; round++) {
        peer.start_anew();
        peer.say(work.before);
        for (size_t i = 0; i < work.timed.size(); i++) {
            auto start = Clock::now();
            peer.say({&work.timed[i], 1});
            best[i] = std::min(best[i], nanoseconds(Clock::now() - start));
        }
    }
    return *std::max_element(best.begin(), best.end());
}

// Ends the measuring, if a peer refused what the keeper didn't, or the other way round.
void check_alike(const Peers &peers, const std::vector<size_t> &done) {
    for (size_t i = 1; i < peers.size(); i++)
        if (done[i] != done[0]) {
            std::fprintf(stderr, "bench: %s did %zu of the sayings, and %s %zu\n", peers[0]->name(), done[0], peers[i]->name(), done[i]);
            std::exit(1);
        }
}

// The peers take turns, in one order and in the next round in the other.
void measure(const Peers &peers, const Workload &work) {
    std::vector<std::vector<double>> times(peers.size());
    std::vector<size_t> done(peers.size());
    for (int round = 0; round < ROUNDS; round++) {
        std::fprintf(stderr, "%zu cards, %s: round %d of %d\n", work.cards, work.name.c_str(), round + 1, ROUNDS);
        for (size_t turn = 0; turn < peers.size(); turn++) {
            size_t i = round % 2 == 0 ? turn : peers.size() - 1 - turn;
            Round played = play(*peers[i], work);
            done[i] = played.done;
            times[i].push_back(played.time / static_cast<double>(work.timed.size()));
        }
        check_alike(peers, done);
    }
    std::printf("%s\t%zu\t%zu\t%zu", work.name.c_str(), work.cards, work.timed.size(), done[0]);
    for (const auto &list : times)
        std::printf("\t%.1f", median(list));
    for (size_t i = 0; i + 1 < peers.size(); i++)
        std::printf("\t%.1f", slowest(*peers[i], work) / 1000);
    std::printf("\n");
    std::fflush(stdout);
}
} // namespace

int main(int argc, char **argv) {
    std::string word = argc > 1 ? argv[1] : "";
    if (argc > 2 || word.starts_with("-")) {
        std::fputs(HELP, word == "--help" ? stdout : stderr);
        return word == "--help" ? 0 : 2;
    }
    Peers peers;
    peers.push_back(make_keeper());
    peers.push_back(make_abseil());
    peers.push_back(make_pearce_kelly());
    peers.push_back(make_jgrapht());
    for (size_t cards : {size_t{700}, size_t{8192}})
        for (const Workload &work : workloads(cards))
            if (work.name.find(word) != std::string::npos)
                measure(peers, work);
}
