#include "workloads.h"
#include <algorithm>
#include <initializer_list>
#include <numeric>
#include <set>
#include <unordered_set>
#include <utility>

namespace {
// SplitMix64.
class Random {
public:
    explicit Random(uint64_t seed) : state(seed) {}
    uint64_t next() {
        uint64_t z = state += 0x9e3779b97f4a7c15;
        z = (z ^ (z >> 30)) * 0xbf58476d1ce4e5b9;
        z = (z ^ (z >> 27)) * 0x94d049bb133111eb;
        return z ^ (z >> 31);
    }
    size_t below(size_t n) { return next() % n; }
    template <class T> void shuffle(std::vector<T> &list) {
        for (size_t i = list.size(); i > 1; i--)
            std::swap(list[i - 1], list[below(i)]);
    }

private:
    uint64_t state;
};

// Two of the cards, by their index.
using Pair = std::pair<size_t, size_t>;

// Cards with random numbers, in the order in which they come, and a hidden order that links may follow.
class Board {
public:
    Board(size_t count, uint64_t seed) : random(seed), hidden(count) {
        std::unordered_set<uint64_t> taken;
        while (cards.size() < count) {
            uint64_t card = (random.next() >> 16) | 1;
            if (taken.insert(card).second)
                cards.push_back(card);
        }
        std::iota(hidden.begin(), hidden.end(), 0);
    }
    // Each card comes.
    std::vector<Saying> coming() const {
        std::vector<Saying> sayings;
        for (uint64_t card : cards)
            sayings.push_back({Kind::Comes, card, 0});
        return sayings;
    }
    Saying link(Pair pair) const { return {Kind::Link, cards[pair.first], cards[pair.second]}; }
    Saying unlink(Pair pair) const { return {Kind::Unlink, cards[pair.first], cards[pair.second]}; }
    // So many pairs, all different, each in the hidden order.
    std::vector<Pair> pairs(size_t count) {
        std::set<Pair> chosen;
        std::vector<Pair> list;
        while (list.size() < count) {
            Pair pair = random_pair();
            if (chosen.insert(pair).second)
                list.push_back(pair);
        }
        return list;
    }
    Pair random_pair() {
        size_t i = random.below(hidden.size());
        size_t j = random.below(hidden.size() - 1);
        j += j >= i;
        return {hidden[std::min(i, j)], hidden[std::max(i, j)]};
    }

    Random random;
    std::vector<uint64_t> cards;
    std::vector<size_t> hidden;
};

std::vector<Saying> links(const Board &board, const std::vector<Pair> &pairs) {
    std::vector<Saying> sayings;
    for (Pair pair : pairs)
        sayings.push_back(board.link(pair));
    return sayings;
}

// Each link is put in and taken out again.
void in_and_out(std::vector<Saying> &sayings, const Board &board, std::initializer_list<Pair> pairs) {
    for (Pair pair : pairs) {
        sayings.push_back(board.link(pair));
        sayings.push_back(board.unlink(pair));
    }
}

void append(std::vector<Saying> &sayings, const std::vector<Saying> &more) {
    sayings.insert(sayings.end(), more.begin(), more.end());
}

Workload random_links(size_t n, size_t count, const char *name) {
    Board board(n, 1);
    board.random.shuffle(board.hidden);
    return {name, n, board.coming(), links(board, board.pairs(count))};
}

// The hidden order is the row but for every fiftieth card, which stands elsewhere.
Workload nearly_all_kept(size_t n) {
    Board board(n, 2);
    for (size_t i = 0; i < n; i += 50)
        std::swap(board.hidden[i], board.hidden[board.random.below(n)]);
    return {"nearly all already kept", n, board.coming(), links(board, board.pairs(3 * n))};
}

Workload all_kept(size_t n) {
    Board board(n, 3);
    return {"all kept", n, board.coming(), links(board, board.pairs(3 * n))};
}

// A chain of the last eighth of the row before one of the first eighth, and then the other way round: the cards between them have no links.
Workload long_parts(size_t n, size_t chain, const char *name) {
    Board board(n, 4);
    size_t chains = n / 8 / chain;
    size_t last = n - chains * chain;
    Workload work{name, n, board.coming(), {}};
    for (size_t i = 0; i < chains * chain; i++)
        if ((i + 1) % chain != 0)
            append(work.before, links(board, {{i, i + 1}, {last + i, last + i + 1}}));
    std::vector<std::pair<Pair, Pair>> swaps;
    for (size_t i = 0; i < n / 8; i++) {
        size_t near = board.random.below(chains) * chain;
        size_t far = last + board.random.below(chains) * chain;
        swaps.push_back({{far + chain - 1, near}, {near + chain - 1, far}});
    }
    for (int turn = 0; turn < 4; turn++)
        for (auto [back, forth] : swaps)
            in_and_out(work.timed, board, {back, forth});
    return work;
}

Workload links_and_unlinks(size_t n) {
    Board board(n, 5);
    board.random.shuffle(board.hidden);
    std::vector<Pair> there = board.pairs(3 * n);
    std::set<Pair> known(there.begin(), there.end());
    Workload work{"links put in and taken out", n, board.coming(), {}};
    append(work.before, links(board, there));
    for (size_t i = 0; i < 3 * n; i++) {
        size_t gone = board.random.below(there.size());
        known.erase(there[gone]);
        work.timed.push_back(board.unlink(there[gone]));
        Pair pair = board.random_pair();
        while (!known.insert(pair).second)
            pair = board.random_pair();
        there[gone] = pair;
        work.timed.push_back(board.link(pair));
    }
    return work;
}

// Each would close a circle with a way of one to four links.
Workload all_refused(size_t n) {
    Board board(n, 6);
    board.random.shuffle(board.hidden);
    std::vector<Pair> there = board.pairs(3 * n);
    std::vector<std::vector<size_t>> after(n);
    for (Pair pair : there)
        after[pair.first].push_back(pair.second);
    Workload work{"all refused", n, board.coming(), {}};
    append(work.before, links(board, there));
    for (size_t i = 0; i < 3 * n; i++) {
        auto [first, last] = there[board.random.below(there.size())];
        for (size_t more = board.random.below(4); more > 0 && !after[last].empty(); more--)
            last = after[last][board.random.below(after[last].size())];
        work.timed.push_back(board.link({last, first}));
    }
    return work;
}

Workload dense() {
    Board board(700, 7);
    board.random.shuffle(board.hidden);
    std::vector<Pair> pairs;
    for (size_t i = 0; i < 700; i++)
        for (size_t j = i + 1; j < 700; j++)
            pairs.push_back({board.hidden[i], board.hidden[j]});
    board.random.shuffle(pairs);
    pairs.resize(60000);
    return {"dense: 60,000 links", 700, board.coming(), links(board, pairs)};
}

// One card is linked with each other one, and then with none.
Workload hub(size_t n) {
    Board board(n, 8);
    board.random.shuffle(board.hidden);
    size_t middle = n / 2;
    std::vector<Pair> pairs;
    for (size_t i = 0; i < n; i++) {
        if (i < middle)
            pairs.push_back({board.hidden[i], board.hidden[middle]});
        if (i > middle)
            pairs.push_back({board.hidden[middle], board.hidden[i]});
    }
    board.random.shuffle(pairs);
    Workload work{"a hub, in and out", n, board.coming(), links(board, pairs)};
    board.random.shuffle(pairs);
    for (Pair pair : pairs)
        work.timed.push_back(board.unlink(pair));
    return work;
}

// Two chains of links, each half of the row; the one has to be before the other, and then the other before the one.
Workload everything_moves(size_t n) {
    Board board(n, 9);
    size_t half = n / 2;
    Workload work{"everything moves", n, board.coming(), {}};
    for (size_t i = 0; i + 1 < n; i++)
        if (i + 1 != half)
            work.before.push_back(board.link({i, i + 1}));
    Pair back = {n - 1, 0}, forth = {half - 1, half};
    for (int turn = 0; turn < 20; turn++)
        in_and_out(work.timed, board, {back, forth});
    return work;
}

// A card goes, comes again, and is linked with three others.
Workload coming_and_going(size_t n) {
    Board board(n, 10);
    board.random.shuffle(board.hidden);
    std::vector<size_t> rank(n);
    for (size_t i = 0; i < n; i++)
        rank[board.hidden[i]] = i;
    Workload work{"cards and links come and go", n, board.coming(), {}};
    append(work.before, links(board, board.pairs(3 * n)));
    for (size_t i = 0; i < n; i++) {
        size_t card = board.random.below(n);
        work.timed.push_back({Kind::Goes, board.cards[card], 0});
        work.timed.push_back({Kind::Comes, board.cards[card], 0});
        std::set<size_t> others;
        while (others.size() < 3)
            others.insert((card + 1 + board.random.below(n - 1)) % n);
        for (size_t other : others) {
            bool first = rank[card] < rank[other];
            work.timed.push_back(board.link(first ? Pair{card, other} : Pair{other, card}));
        }
    }
    return work;
}
} // namespace

std::vector<Workload> workloads(size_t cards) {
    std::vector<Workload> list = {
        random_links(cards, 3 * cards, "random links, 3 a card"),
        random_links(cards, 8 * cards, "random links, 8 a card"),
        nearly_all_kept(cards),
        all_kept(cards),
        long_parts(cards, 1, "long part, two cards touched"),
        long_parts(cards, 8, "long part, sixteen touched"),
        links_and_unlinks(cards),
        all_refused(cards),
        hub(cards),
        everything_moves(cards),
        coming_and_going(cards),
    };
    if (cards == 700)
        list.push_back(dense());
    return list;
}
