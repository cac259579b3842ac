// What the peers are made to do.
#pragma once
#include "peer.h"
#include <string>
#include <vector>

// The first sayings make the board, and aren't timed.
struct Workload {
    std::string name;
    size_t cards;
    std::vector<Saying> before;
    std::vector<Saying> timed;
};

// All workloads for a board of so many cards.
std::vector<Workload> workloads(size_t cards);
