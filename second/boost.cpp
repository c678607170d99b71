// How long a card takes, against Boost.Geometry's R-tree on the same 400 random points with k 5, in one process and turn about.
// The library makes all 400 cards in one call, with the check of the table and the search for each station by its number. Boost is handed each
// station's place: nearest(place, k + 1) goes to a reserved row, in any order, and the station itself is dropped. Its trees have eight to a node,
// as the table has; each is made twice, by inserting one point after the other, as the desk enrols them, and by packing all at once.
// Every card must name the same holders. `boost [ROUNDS]`; tools/bench-cards builds and runs it.
#define BOOST_ALLOW_DEPRECATED_HEADERS
#include "ullagreth.h"
#include <algorithm>
#include <boost/geometry.hpp>
#include <boost/geometry/geometries/point.hpp>
#include <boost/geometry/index/rtree.hpp>
#include <chrono>
#include <cstdint>
#include <cstdio>
#include <cstdlib>
#include <functional>
#include <limits>
#include <string>
#include <utility>
#include <vector>

namespace bg = boost::geometry;
namespace bgi = boost::geometry::index;

namespace {

constexpr int STATIONS = 400, NODE = 8, CALLS = 20;
constexpr std::size_t MOST_K = ULLAGRETH_MOST_K;

struct Station {
    std::int32_t number, x, y;
};

// A stretch of MOST_K places for each station.
using Row = std::vector<std::uint32_t>;

// One way to make all cards, what it made, and the least seconds that it took.
struct Way {
    std::string name;
    std::function<void(Row &)> make;
    Row row = Row(MOST_K * STATIONS);
    double least = std::numeric_limits<double>::infinity();
};

// Repeatable random numbers (splitmix64).
std::uint64_t next(std::uint64_t &state)
{
    std::uint64_t z = state += 0x9e3779b97f4a7c15;
    z = (z ^ (z >> 30)) * 0xbf58476d1ce4e5b9;
    z = (z ^ (z >> 27)) * 0x94d049bb133111eb;
    return z ^ (z >> 31);
}

[[noreturn]] void fail(const std::string &why)
{
    std::fprintf(stderr, "cards: %s\n", why.c_str());
    std::exit(1);
}

template <typename Tree>
std::function<void(Row &)> by_tree(Tree tree, const std::vector<Station> &all, int k)
{
    using Value = typename Tree::value_type;
    std::vector<Value> found;
    std::vector<typename Value::first_type> places;
    for (const Station &s : all)
        places.emplace_back(s.x, s.y);
    return [tree, &all, k, found, places](Row &row) mutable {
        found.reserve(MOST_K + 1);
        for (std::size_t i = 0; i < all.size(); i++) {
            found.clear();
            tree.query(bgi::nearest(places[i], unsigned(k) + 1), std::back_inserter(found));
            std::uint32_t *name = &row[MOST_K * i];
            for (const Value &other : found)
                if (other.second != all[i].number)
                    *name++ = std::uint32_t(other.second);
        }
    };
}

template <typename Coordinate, typename Parameters>
void add_trees(std::vector<Way> &inserted, std::vector<Way> &packed, const std::string &name, const std::vector<Station> &all, int k)
{
    using Place = bg::model::point<Coordinate, 2, bg::cs::cartesian>;
    using Tree = bgi::rtree<std::pair<Place, std::int32_t>, Parameters>;
    std::vector<typename Tree::value_type> values;
    for (const Station &s : all)
        values.emplace_back(Place(s.x, s.y), s.number);
    Tree tree;
    for (const auto &value : values)
        tree.insert(value);
    inserted.push_back({name, by_tree(tree, all, k)});
    packed.push_back({name + ", packed", by_tree(Tree(values), all, k)});
}

void run(std::vector<Way> &ways)
{
    for (Way &way : ways) {
        const auto began = std::chrono::steady_clock::now();
        for (int call = 0; call < CALLS; call++)
            way.make(way.row);
        const std::chrono::duration<double> took = std::chrono::steady_clock::now() - began;
        way.least = std::min(way.least, took.count());
    }
}

// The names of each card, rising: Boost lists them in no order. No two holders here are as far from a third, so that it has no choice.
Row rising(Row row)
{
    for (std::size_t at = 0; at < row.size(); at += MOST_K)
        std::sort(row.begin() + at, row.begin() + at + MOST_K);
    return row;
}

// Says how long each way took, and gives back the fastest.
const Way &told(const std::vector<Way> &ways)
{
    for (const Way &way : ways)
        std::printf("cards: %-27s %.3f microseconds a card\n", way.name.c_str(), 1e6 * way.least / (CALLS * STATIONS));
    return *std::min_element(ways.begin(), ways.end(), [](const Way &a, const Way &b) { return a.least < b.least; });
}

} // namespace

int main(int arguments, char **argument)
{
    const int rounds = arguments > 1 ? std::atoi(argument[1]) : 50;
    const volatile int asked = 5; // known only when it runs, to both
    const int k = asked;
    std::uint64_t state = 42;
    std::vector<std::int32_t> table(ULLAGRETH_WORDS), numbers;
    std::vector<Station> all;
    std::int32_t fault[2]; // rule and slot of a bad table, which this is not
    ullagreth_empty(table.data());
    const auto coordinate = [&] { return std::int32_t(next(state) % (2 * ULLAGRETH_REACH + 1)) - ULLAGRETH_REACH; };
    while (all.size() < STATIONS) {
        const std::int32_t x = coordinate(), y = coordinate(), number = std::int32_t(next(state) % ULLAGRETH_HIGHEST_NUMBER) + 1;
        if (ullagreth_enrol(table.data(), table.size(), number, x, y, fault, 2) == ULLAGRETH_DONE) {
            all.push_back({number, x, y});
            numbers.push_back(number);
        }
    }

    std::vector<Way> proved, inserted, packed;
    proved.push_back({"proved", [&](Row &row) {
        if (ullagreth_cards(table.data(), table.size(), numbers.data(), numbers.size(), k, row.data(), row.size(), fault, 2) != ULLAGRETH_DONE)
            fail("the table was refused");
    }});
    add_trees<double, bgi::rstar<NODE>>(inserted, packed, "rstar of double", all, k);
    add_trees<double, bgi::linear<NODE>>(inserted, packed, "linear of double", all, k);
    add_trees<double, bgi::quadratic<NODE>>(inserted, packed, "quadratic of double", all, k);
    add_trees<std::int64_t, bgi::rstar<NODE>>(inserted, packed, "rstar of int64", all, k);
    add_trees<std::int64_t, bgi::linear<NODE>>(inserted, packed, "linear of int64", all, k);
    add_trees<std::int64_t, bgi::quadratic<NODE>>(inserted, packed, "quadratic of int64", all, k);

    for (int round = 0; round < rounds; round++)
        for (auto *ways : {&proved, &inserted, &packed})
            run(*ways);
    for (auto *ways : {&inserted, &packed})
        for (const Way &way : *ways)
            if (rising(way.row) != rising(proved[0].row))
                fail("the cards of " + way.name + " differ");

    std::printf("cards: %d random points, k %d, all %d cards %d times, the best of %d rounds; the cards agree\n", STATIONS, k, STATIONS, CALLS, rounds);
    const Way &ours = told(proved), &theirs = told(inserted), &theirs_packed = told(packed);
    std::printf("cards: proved takes %.2f times the time of Boost's fastest tree of inserted points, %s (wanted: at most 1)\n", ours.least / theirs.least, theirs.name.c_str());
    std::printf("cards: and %.2f times that of its fastest packed tree, %s\n", ours.least / theirs_packed.least, theirs_packed.name.c_str());
    return 0;
}
