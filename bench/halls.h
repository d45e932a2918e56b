// Halls for the benchmarks, and how their calls are timed.
#pragma once
#include "hall.h"

#include <algorithm>
#include <chrono>
#include <cstdio>
#include <functional>
#include <random>
#include <string>
#include <vector>

using Clock = std::chrono::steady_clock;

// Passing times are 0 at first.
struct Hall {
    uint64_t n;
    std::vector<uint32_t> cost, passing, time, ways;
    std::vector<uint64_t> share, score;

    explicit Hall(uint64_t stops)
        : n(stops), cost(n * n), passing(n), time(n * n), ways(n * n), share(n * n), score(n) {}

    hall_tables tables() { return {n, cost.data(), passing.data(), time.data(), ways.data(), share.data(), score.data()}; }

    uint32_t work_out() {
        hall_tables t = tables();
        return hall_work_out(n, HALL_TABLES(t));
    }
    uint32_t audit() {
        hall_tables t = tables();
        return hall_audit(n, HALL_TABLES(t));
    }
    uint32_t move_over() {
        hall_tables t = tables();
        return hall_move_over(n, HALL_OLD_TABLES(t));
    }
    hall_edited insert(uint64_t u, uint64_t v, uint64_t c) {
        hall_tables t = tables();
        return hall_insert(n, u, v, c, HALL_TABLES(t));
    }
    hall_edited cheapen(uint64_t u, uint64_t v, uint64_t c) {
        hall_tables t = tables();
        return hall_cheapen(n, u, v, c, HALL_TABLES(t));
    }
    hall_edited raise(uint64_t u, uint64_t v, uint64_t c) {
        hall_tables t = tables();
        return hall_raise(n, u, v, c, HALL_TABLES(t));
    }
    hall_edited remove(uint64_t u, uint64_t v) {
        hall_tables t = tables();
        return hall_delete(n, u, v, HALL_TABLES(t));
    }
    hall_listed edit_list(const std::vector<hall_edit> &list) {
        hall_tables t = tables();
        return hall_edit_list(n, list.data(), list.size(), HALL_TABLES(t));
    }
    hall_written list_routes(uint64_t from, uint64_t to, std::vector<uint8_t> &buffer) {
        hall_tables t = tables();
        return hall_list_routes(n, from, to, HALL_TABLES(t), buffer.data(), buffer.size());
    }
};

struct Link {
    uint64_t from, to;
    uint32_t cost;
};

inline std::vector<Link> links_of(const Hall &h) {
    std::vector<Link> links;
    for (uint64_t u = 0; u < h.n; u++)
        for (uint64_t v = 0; v < h.n; v++)
            if (h.cost[u * h.n + v]) links.push_back({u, v, h.cost[u * h.n + v]});
    return links;
}

// What a link weighs in a graph that has no passing times: its cost, and the passing time of the stop that it leaves. The weights of a
// route add up to its time and the passing time of the stop where it begins, which is the same for all routes from there. So the
// shortest paths of these weights are the quickest routes, and their betweenness is that of the hall, exactly.
inline uint32_t weight(const Hall &h, const Link &l) { return l.cost + h.passing[l.from]; }

// Microseconds of one run.
inline double time_of(const std::function<void()> &run) {
    auto start = Clock::now();
    run();
    return std::chrono::duration<double, std::micro>(Clock::now() - start).count();
}

// The least of `times` runs.
inline double least_time(int times, const std::function<void()> &run) {
    double best = 1e300;
    for (int i = 0; i < times; i++) best = std::min(best, time_of(run));
    return best;
}

inline Hall random_hall(uint64_t n, size_t links, std::mt19937 &random) {
    Hall h(n);
    std::uniform_int_distribution<uint32_t> stop(0, n - 1), cost(1, 65535);
    // a ring first, so that every stop is reached
    size_t made = 0;
    for (uint64_t u = 0; u < n; u++, made++) h.cost[u * n + (u + 1) % n] = cost(random);
    while (made < links) {
        uint64_t u = stop(random), v = stop(random);
        if (u == v || h.cost[u * n + v]) continue;
        h.cost[u * n + v] = cost(random);
        made++;
    }
    return h;
}

inline Hall grid(uint64_t side, std::mt19937 &random) {
    Hall h(side * side);
    std::uniform_int_distribution<uint32_t> cost(1, 65535);
    for (uint64_t r = 0; r < side; r++)
        for (uint64_t c = 0; c < side; c++) {
            uint64_t here = r * side + c;
            if (c + 1 < side) h.cost[here * h.n + here + 1] = h.cost[(here + 1) * h.n + here] = cost(random);
            if (r + 1 < side) h.cost[here * h.n + here + side] = h.cost[(here + side) * h.n + here] = cost(random);
        }
    return h;
}

inline Hall ring(uint64_t n, std::mt19937 &random) {
    Hall h(n);
    std::uniform_int_distribution<uint32_t> cost(100, 200);
    for (uint64_t u = 0; u < n; u++) h.cost[u * n + (u + 1) % n] = cost(random);
    for (uint64_t u = 0; u < n; u += 8) h.cost[u * n + (u + 5) % n] = 4 * cost(random);
    return h;
}

// The same links, and a passing time of up to `most` at each stop.
inline Hall with_passing(Hall h, uint32_t most, std::mt19937 &random) {
    std::uniform_int_distribution<uint32_t> passing(0, most);
    for (uint32_t &time : h.passing) time = passing(random);
    return h;
}

// A two-way grid in which all links cost 1: far stops have more ways than are counted.
inline Hall even_grid(uint64_t side) {
    std::mt19937 unused;
    Hall h = grid(side, unused);
    for (uint32_t &cost : h.cost) cost = std::min<uint32_t>(cost, 1);
    return h;
}

// Links from each stop to all later ones, as slow as they are long, so that the ways double from stop to stop.
inline Hall doubling(uint64_t n) {
    Hall h(n);
    for (uint64_t u = 0; u < n; u++)
        for (uint64_t v = u + 1; v < n; v++) h.cost[u * n + v] = v - u;
    return h;
}

inline Hall line(uint64_t n) {
    Hall h(n);
    for (uint64_t u = 0; u + 1 < n; u++) h.cost[u * n + u + 1] = 1;
    return h;
}

// A line with four links past a stop, from stop `at` on, each as slow as the way over that stop, with the same passing time everywhere:
// 2 times 2 times 3 quickest routes. No 12 routes have a longer list.
inline Hall twelve_ways(uint64_t n, uint64_t at, uint32_t passing = 0) {
    Hall h = line(n);
    std::fill(h.passing.begin(), h.passing.end(), passing);
    for (uint64_t u : {at, at + 2, at + 4, at + 5}) h.cost[u * n + u + 2] = 2 + passing;
    return h;
}

// The same hall with all links that it has not, so slow that they leave its routes from the first stop to the last as they are.
inline Hall all_links(Hall h) {
    for (uint64_t u = 0; u < h.n; u++)
        for (uint64_t v = 0; v < h.n; v++)
            if (u != v && !h.cost[u * h.n + v]) h.cost[u * h.n + v] = HALL_LARGEST_COST;
    return h;
}
