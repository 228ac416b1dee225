// Unions, differences and inclusions of sets of 32 servers with 100 intervals each, with Boost.ICL, and the time that they take.
#include <array>
#include <boost/icl/interval_set.hpp>
#include <cstdint>
#include <ctime>
#include <functional>
#include <iostream>
#include <map>

using Server = std::array<std::uint8_t, 16>;
using Numbers = boost::icl::interval_set<std::uint64_t, std::less, boost::icl::right_open_interval<std::uint64_t>>;
using Set = std::map<Server, Numbers>;

constexpr int servers = 32;
constexpr int intervals = 100;
constexpr int rounds = 2000;

// 100 intervals of ten transactions a server, with gaps of ten, behind a number.
static Set set_behind(std::uint64_t behind) {
    Set set;
    for (int last = 0; last < servers; ++last) {
        Numbers &numbers = set[Server{0, 0, 0, 0, 0, 0, 0x40, 0, 0x80, 0, 0, 0, 0, 0, 1, static_cast<std::uint8_t>(last)}];
        for (std::uint64_t k = 0; k < intervals; ++k)
            numbers += Numbers::interval_type(20 * k + behind + 1, 20 * k + behind + 11);
    }
    return set;
}

static Set union_of(const Set &a, const Set &b) {
    Set all = a;
    for (const auto &[server, numbers] : b) all[server] += numbers;
    return all;
}

static Set minus_of(const Set &a, const Set &b) {
    Set kept = a;
    for (const auto &[server, numbers] : b) {
        auto found = kept.find(server);
        if (found == kept.end()) continue;
        found->second -= numbers;
        if (found->second.empty()) kept.erase(found);
    }
    return kept;
}

static bool covers(const Set &a, const Set &b) {
    for (const auto &[server, numbers] : b) {
        auto found = a.find(server);
        if (found == a.end() || !boost::icl::contains(found->second, numbers)) return false;
    }
    return true;
}

static std::size_t intervals_of(const Set &set) {
    std::size_t count = 0;
    for (const auto &[server, numbers] : set) count += numbers.iterative_size();
    return count;
}

// Prints the name, how many rounds there were, their processor time in microseconds, and what the last of them made.
static void measure(const char *name, const std::function<std::size_t()> &round) {
    std::clock_t start = std::clock();
    volatile std::size_t made = 0;
    for (int n = 0; n < rounds; ++n) made = round();
    std::clock_t taken = (std::clock() - start) / (CLOCKS_PER_SEC / 1000000);
    std::cout << name << ' ' << rounds << ' ' << taken << ' ' << made << '\n';
}

int main() {
    Set a = set_behind(0), b = set_behind(5), both = union_of(a, b);
    measure("union", [&] { return intervals_of(union_of(a, b)); });
    measure("minus", [&] { return intervals_of(minus_of(a, b)); });
    measure("covers", [&] { return std::size_t(covers(both, a)); });
}
