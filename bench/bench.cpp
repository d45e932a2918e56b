// Work out, audit and edit of the proved library beside Boost's and igraph's betweenness, in one process and on the same
// graphs; a raise beside the delete and the insert that said the same before there was one; a list of eight edits beside the same
// eight one by one; and the moving call on the same hall by the old numbers. Behind them work out, audit and edit of the same halls with
// passing times beside those without, a list of routes beside an audit of the same hall, and beside igraph's, and halls with crowded
// pairs, whose scores are counted here, since Boost and igraph leave no pair out. Times are the least of many runs, taken in turn; ratios
// are theirs, or those of the two edits, divided by ours, for lists the list divided by the single edits, for the moving call its time
// divided by that of an audit and of a work out, for passing times the time with them divided by that without, and for a list of routes
// its time, with the audit that it makes, divided by that of an audit. Boost and igraph know no passing times; they are in the weights of
// their links (`weight`, halls.h).
#include "halls.h"

#include <boost/graph/adjacency_list.hpp>
#include <boost/graph/betweenness_centrality.hpp>
#include <igraph/igraph.h>

#include <cmath>
#include <cstdlib>

struct Boost {
    typedef boost::adjacency_list<boost::vecS, boost::vecS, boost::directedS, boost::no_property,
                                  boost::property<boost::edge_weight_t, uint32_t>>
        Graph;
    Graph graph;
    std::vector<double> scores;

    explicit Boost(const Hall &h) : graph(h.n), scores(h.n) {
        for (const Link &l : links_of(h)) boost::add_edge(l.from, l.to, weight(h, l), graph);
    }
    void run() {
        auto index = boost::get(boost::vertex_index, graph);
        auto centrality = boost::make_iterator_property_map(scores.begin(), index);
        boost::brandes_betweenness_centrality(
            graph, boost::centrality_map(centrality).vertex_index_map(index).weight_map(
                       boost::get(boost::edge_weight, graph)));
    }
};

struct Igraph {
    igraph_t graph;
    igraph_vector_t weights, scores;

    explicit Igraph(const Hall &h) {
        std::vector<Link> links = links_of(h);
        igraph_vector_int_t ends;
        igraph_vector_int_init(&ends, 0);
        igraph_vector_init(&weights, 0);
        for (const Link &l : links) {
            igraph_vector_int_push_back(&ends, l.from);
            igraph_vector_int_push_back(&ends, l.to);
            igraph_vector_push_back(&weights, weight(h, l));
        }
        igraph_create(&graph, &ends, h.n, IGRAPH_DIRECTED);
        igraph_vector_int_destroy(&ends);
        igraph_vector_init(&scores, h.n);
    }
    ~Igraph() {
        igraph_destroy(&graph);
        igraph_vector_destroy(&weights);
        igraph_vector_destroy(&scores);
    }
    void run() { igraph_betweenness(&graph, &scores, igraph_vss_all(), IGRAPH_DIRECTED, &weights); }

    // The quickest routes from one stop to another, in the order in which they are found.
    std::vector<std::vector<uint8_t>> routes(uint64_t from, uint64_t to) {
        std::vector<std::vector<uint8_t>> routes;
        igraph_vector_int_list_t paths;
        igraph_vector_int_list_init(&paths, 0);
        igraph_get_all_shortest_paths_dijkstra(&graph, &paths, nullptr, nullptr, from, igraph_vss_1(to), &weights, IGRAPH_OUT);
        for (igraph_integer_t i = 0; i < igraph_vector_int_list_size(&paths); i++) {
            igraph_vector_int_t *path = igraph_vector_int_list_get_ptr(&paths, i);
            routes.emplace_back(VECTOR(*path), VECTOR(*path) + igraph_vector_int_size(path));
        }
        igraph_vector_int_list_destroy(&paths);
        return routes;
    }
};

static bool agrees(const Hall &h, const std::function<double(size_t)> &theirs) {
    for (size_t v = 0; v < h.n; v++) {
        double ours = double(h.score[v]) / double(HALL_SCALE);
        if (std::fabs(ours - theirs(v)) > 1e-6 * (1 + ours)) return false;
    }
    return true;
}

// Runs both, and says whether their scores are ours. They count every pair, so no pair may be crowded.
static bool agrees(const Hall &h, Boost &boost, Igraph &igraph) {
    boost.run();
    igraph.run();
    bool open = *std::max_element(h.ways.begin(), h.ways.end()) <= HALL_WAYS;
    return open && agrees(h, [&](size_t v) { return boost.scores[v]; }) && agrees(h, [&](size_t v) { return VECTOR(igraph.scores)[v]; });
}

static size_t useful_links(const Hall &h) {
    size_t useful = 0;
    for (size_t i = 0; i < h.cost.size(); i++) useful += h.cost[i] && h.cost[i] == h.time[i];
    return useful;
}

// Makes an edit or a list, which must be accepted, keeps its least time so far, and gives its answer.
template <typename Edit> static auto timed(double &least, const Edit &edit) {
    decltype(edit()) answer = {};
    least = std::min(least, time_of([&] { answer = edit(); }));
    if (answer.refusal != HALL_ACCEPTED) {
        std::printf("an edit was refused with %u\n", answer.refusal);
        std::exit(1);
    }
    return answer;
}

// Microseconds of an edit with its audit, and the rows that it touches.
struct Edits {
    double edit = 0, rows = 0;
};

// Means over the links. Each is deleted and inserted again; both count with their least times of ten rounds.
static Edits edits(Hall &h, const std::vector<Link> &links) {
    Edits sum;
    for (const Link &l : links) {
        double gone = 1e300, back = 1e300;
        hall_edited out = {}, in = {};
        for (int round = 0; round < 10; round++) {
            out = timed(gone, [&] { return h.remove(l.from, l.to); });
            in = timed(back, [&] { return h.insert(l.from, l.to, l.cost); });
        }
        sum.edit += (gone + back) / (2 * links.size());
        sum.rows += double(out.rows + in.rows) / (2 * links.size());
    }
    return sum;
}

// Microseconds of a raise, and of the delete and the insert that say the same in two edits.
struct Slower {
    double raise = 0, two = 0;
};

// Means over the links. Each is raised by half, at once and in two edits, and cheapened back after both; it counts with its least
// times of ten rounds. A link with the largest cost is left out.
static Slower slower(Hall &h, const std::vector<Link> &links) {
    Slower sum;
    uint64_t count = 0;
    for (const Link &l : links) {
        if (l.cost == HALL_LARGEST_COST) continue;
        uint64_t c = std::min<uint64_t>(l.cost + l.cost / 2 + 1, HALL_LARGEST_COST);
        double raise = 1e300, gone = 1e300, back = 1e300, unused = 1e300;
        auto restore = [&] { return h.cheapen(l.from, l.to, l.cost); };
        for (int round = 0; round < 10; round++) {
            timed(raise, [&] { return h.raise(l.from, l.to, c); });
            timed(unused, restore);
            timed(gone, [&] { return h.remove(l.from, l.to); });
            timed(back, [&] { return h.insert(l.from, l.to, c); });
            timed(unused, restore);
        }
        sum.raise += raise;
        sum.two += gone + back;
        count++;
    }
    return count ? Slower{sum.raise / count, sum.two / count} : Slower{};
}

// Microseconds of a list of eight edits, and of the same eight one by one.
struct Lists {
    double list = 0, single = 0;
};

// Means over the links by eights. Eight are deleted and inserted again, the last one first, so that the halls on the way back are
// those on the way out, as two lists and one by one; each counts with its least time of ten rounds.
static Lists lists(Hall &h, const std::vector<Link> &links) {
    Lists sum;
    uint64_t count = 0;
    for (size_t at = 0; at + 8 <= links.size(); at += 8) {
        std::vector<hall_edit> out, in;
        for (size_t i = at; i < at + 8; i++) {
            out.push_back({HALL_DELETE, links[i].from, links[i].to, 0});
            in.insert(in.begin(), {HALL_INSERT, links[i].from, links[i].to, links[i].cost});
        }
        double list[2] = {1e300, 1e300}, single[16];
        std::fill(single, single + 16, 1e300);
        for (int round = 0; round < 10; round++) {
            timed(list[0], [&] { return h.edit_list(out); });
            timed(list[1], [&] { return h.edit_list(in); });
            for (size_t i = 0; i < 8; i++) timed(single[i], [&] { return h.remove(out[i].from, out[i].to); });
            for (size_t i = 0; i < 8; i++) timed(single[8 + i], [&] { return h.insert(in[i].from, in[i].to, in[i].c); });
        }
        sum.list += list[0] + list[1];
        for (double t : single) sum.single += t;
        count += 2;
    }
    return count ? Lists{sum.list / count, sum.single / count} : Lists{};
}

// The tables that the old numbers gave for the same links.
static Hall old_tables(Hall h) {
    for (uint64_t &share : h.share) share *= HALL_OLD_SCALE / HALL_SCALE;
    for (uint64_t &score : h.score) score *= HALL_OLD_SCALE / HALL_SCALE;
    return h;
}

// Puts such tables into h and moves them over, fifty times: keeps the least time so far, and says whether all left what a work out
// does.
static bool moved(Hall &h, const Hall &old, const Hall &anew, double &least) {
    bool same = true;
    for (int round = 0; round < 50; round++) {
        uint32_t refusal = HALL_NO_KIND;
        h.share = old.share;
        h.score = old.score;
        least = std::min(least, time_of([&] { refusal = h.move_over(); }));
        same = same && refusal == HALL_ACCEPTED && h.share == anew.share && h.score == anew.score;
    }
    return same;
}

// At most 64 links of a hall, at random.
static std::vector<Link> some_links(const Hall &h, std::mt19937 &random) {
    std::vector<Link> links = links_of(h);
    std::shuffle(links.begin(), links.end(), random);
    if (links.size() > 64) links.resize(64);
    return links;
}

static int measure(const std::string &name, Hall h, std::mt19937 &random) {
    if (h.work_out() != HALL_ACCEPTED) {
        std::printf("%-28s refused\n", name.c_str());
        return 1;
    }
    Boost boost(h);
    Igraph igraph(h);
    bool same = agrees(h, boost, igraph);

    const Hall anew = h, old = old_tables(h);
    double ours = 1e300, audit = 1e300, move = 1e300, theirs = 1e300, others = 1e300;
    for (int round = 0; round < 20; round++) {
        ours = std::min(ours, least_time(50, [&] { h.work_out(); }));
        audit = std::min(audit, least_time(50, [&] { h.audit(); }));
        same = moved(h, old, anew, move) && same;
        theirs = std::min(theirs, least_time(10, [&] { boost.run(); }));
        others = std::min(others, least_time(10, [&] { igraph.run(); }));
    }

    std::vector<Link> links = some_links(h, random);
    std::vector<uint32_t> costs = h.cost;
    Edits e = edits(h, links);
    Slower s = slower(h, links);
    Lists l = lists(h, links);
    same = same && h.cost == costs && h.audit() == HALL_ACCEPTED;

    std::printf("%-28s %5zu %6zu | %8.1f %8.1f %8.1f %5.1f %8.1f | %6.2f %6.2f | %6.2f | %6.2f %6.2f | %8.2f | %8.1f %6.3f | "
                "%8.1f %6.2f %6.2f | %s\n",
                name.c_str(), links_of(h).size(), useful_links(h), ours, audit, e.edit, e.rows, s.raise, theirs / ours, others / ours,
                theirs / audit, theirs / e.edit, others / e.edit, s.two / s.raise, l.list, l.list / l.single, move, move / audit, move / ours,
                same ? "agree" : "DIFFER");
    return same ? 0 : 1;
}

// Work out, audit and edit of one hall.
struct Times {
    double work_out = 1e300, audit = 1e300;
    Edits edits;
};

static void whole(Hall &h, Times &best) {
    best.work_out = std::min(best.work_out, least_time(50, [&] { h.work_out(); }));
    best.audit = std::min(best.audit, least_time(50, [&] { h.audit(); }));
}

// Means over the links, each in turn in both halls.
static void edits_of_both(Hall &a, Hall &b, const std::vector<Link> &links, Edits &of_a, Edits &of_b) {
    for (const Link &l : links) {
        Edits in_a = edits(a, {l}), in_b = edits(b, {l});
        of_a = {of_a.edit + in_a.edit / links.size(), of_a.rows + in_a.rows / links.size()};
        of_b = {of_b.edit + in_b.edit / links.size(), of_b.rows + in_b.rows / links.size()};
    }
}

// A hall and the one with the same links and passing times. Other routes are quickest there, so the times differ by the hall too.
static int measure_passing(const std::string &name, Hall bare, Hall passed, std::mt19937 &random) {
    if (bare.work_out() != HALL_ACCEPTED || passed.work_out() != HALL_ACCEPTED) {
        std::printf("%-28s refused\n", name.c_str());
        return 1;
    }
    Boost boost(passed);
    Igraph igraph(passed);
    bool same = agrees(passed, boost, igraph);
    const Hall anew = passed;

    Times without, with;
    double theirs = 1e300;
    for (int round = 0; round < 20; round++) {
        whole(bare, without);
        whole(passed, with);
        theirs = std::min(theirs, least_time(10, [&] { boost.run(); }));
    }
    edits_of_both(bare, passed, some_links(bare, random), without.edits, with.edits);
    same = same && passed.cost == anew.cost && passed.passing == anew.passing && passed.score == anew.score &&
           passed.audit() == HALL_ACCEPTED && bare.audit() == HALL_ACCEPTED;

    std::printf("%-28s %5zu %7zu %6zu | %8.1f %8.1f %8.1f %5.1f | %8.1f %8.1f %8.1f %5.1f | %8.2f %6.2f %6.2f | %6.2f | %s\n",
                name.c_str(), links_of(bare).size(), useful_links(bare), useful_links(passed), without.work_out, without.audit,
                without.edits.edit, without.edits.rows, with.work_out, with.audit, with.edits.edit, with.edits.rows,
                with.work_out / without.work_out, with.audit / without.audit, with.edits.edit / without.edits.edit,
                theirs / with.work_out, same ? "agree" : "DIFFER");
    return same ? 0 : 1;
}

// The number of quickest routes of each pair, counted along the times of a hall without passing times, as far as a double counts.
static std::vector<double> all_ways(const Hall &h) {
    std::vector<double> ways(h.n * h.n);
    std::vector<Link> links = links_of(h);
    for (uint64_t s = 0; s < h.n; s++) {
        const uint32_t *time = &h.time[s * h.n];
        std::sort(links.begin(), links.end(), [&](const Link &a, const Link &b) { return time[a.from] < time[b.from]; });
        ways[s * h.n + s] = 1;
        for (const Link &l : links)
            if (time[l.from] != HALL_MARK && time[l.from] + l.cost == time[l.to]) ways[s * h.n + l.to] += ways[s * h.n + l.from];
    }
    return ways;
}

// Whether the ways and scores are those of the pairs with at most 12 ways; says how many pairs have more.
static bool counts(const Hall &h, size_t &crowded) {
    const std::vector<double> ways = all_ways(h);
    std::vector<double> scores(h.n);
    bool same = true;
    crowded = 0;
    for (uint64_t s = 0; s < h.n; s++)
        for (uint64_t t = 0; t < h.n; t++) {
            const double here = ways[s * h.n + t];
            same = same && h.ways[s * h.n + t] == std::min<double>(here, HALL_CROWDED_WAYS);
            crowded += here > HALL_WAYS;
            if (here == 0 || here > HALL_WAYS) continue;
            for (uint64_t v = 0; v < h.n; v++)
                if (v != s && v != t && uint64_t(h.time[s * h.n + v]) + h.time[v * h.n + t] == h.time[s * h.n + t])
                    scores[v] += ways[s * h.n + v] * ways[v * h.n + t] / here;
        }
    return same && agrees(h, [&](size_t v) { return scores[v]; });
}

// A hall with crowded pairs. Boost counts them too, so its scores are others.
static int measure_crowded(const std::string &name, Hall h, std::mt19937 &random) {
    size_t crowded = 0;
    bool same = h.work_out() == HALL_ACCEPTED && counts(h, crowded);
    const Hall anew = h;
    Boost boost(h);
    Times best;
    double theirs = 1e300;
    for (int round = 0; round < 20; round++) {
        whole(h, best);
        theirs = std::min(theirs, least_time(10, [&] { boost.run(); }));
    }
    best.edits = edits(h, some_links(h, random));
    same = same && h.cost == anew.cost && h.ways == anew.ways && h.score == anew.score && h.audit() == HALL_ACCEPTED;
    std::printf("%-28s %5zu %6zu %7zu | %8.1f %8.1f %8.1f %5.1f | %6.2f | %s\n", name.c_str(), links_of(h).size(), useful_links(h), crowded,
                best.work_out, best.audit, best.edits.edit, best.edits.rows, theirs / best.work_out, same ? "agree" : "DIFFER");
    return same ? 0 : 1;
}

// The bytes of a list of these routes.
static std::vector<uint8_t> list_of(std::vector<std::vector<uint8_t>> routes) {
    std::sort(routes.begin(), routes.end());
    std::vector<uint8_t> bytes = {uint8_t(routes.size())};
    for (const std::vector<uint8_t> &route : routes) {
        bytes.push_back(uint8_t(route.size()));
        bytes.insert(bytes.end(), route.begin(), route.end());
    }
    return bytes;
}

// The list of the routes from the first stop to the last. Ours audits the tables and follows them; igraph's has none, and searches from
// the first stop.
static int measure_list(const std::string &name, Hall h) {
    if (h.work_out() != HALL_ACCEPTED) {
        std::printf("%-28s refused\n", name.c_str());
        return 1;
    }
    Igraph igraph(h);
    std::vector<uint8_t> buffer(HALL_LONGEST_ROUTE_LIST);
    hall_written w = {};
    double list = 1e300, audit = 1e300, theirs = 1e300;
    for (int round = 0; round < 20; round++) {
        list = std::min(list, least_time(50, [&] { w = h.list_routes(0, h.n - 1, buffer); }));
        audit = std::min(audit, least_time(50, [&] { h.audit(); }));
        theirs = std::min(theirs, least_time(10, [&] { igraph.routes(0, h.n - 1); }));
    }
    buffer.resize(w.length);
    bool same = w.refusal == HALL_ACCEPTED && buffer == list_of(igraph.routes(0, h.n - 1));
    std::printf("%-28s %5zu %6d %6zu | %8.1f %8.1f %6.2f | %6.2f | %s\n", name.c_str(), links_of(h).size(), buffer.empty() ? 0 : buffer[0],
                buffer.size(), audit, list, list / audit, theirs / list, same ? "agree" : "DIFFER");
    return same ? 0 : 1;
}

// One line a link, for the comparison with NetworkX.
static void write_links(const char *path, const Hall &h) {
    std::FILE *f = std::fopen(path, "w");
    if (!f) return;
    std::fprintf(f, "%llu\n", (unsigned long long)h.n);
    for (const Link &l : links_of(h))
        std::fprintf(f, "%llu %llu %u\n", (unsigned long long)l.from, (unsigned long long)l.to, weight(h, l));
    std::fclose(f);
}

// A hall of the family, and the longest passing time that its stops may get.
struct Named {
    std::string name;
    Hall hall;
    uint32_t most;
};

int main(int argc, char **argv) {
    std::mt19937 random(7);
    std::vector<Named> family;
    auto run = [&](const std::string &name, const Hall &h, uint32_t most) {
        family.push_back({name, h, most});
        return measure(name, h, random);
    };
    std::printf("%-28s %5s %6s | %8s %8s %8s %5s %8s | %6s %6s | %6s | %6s %6s | %8s | %8s %6s | %8s %6s %6s |\n", "hall", "links",
                "useful", "work out", "audit", "edit", "rows", "raise", "Boost", "igraph", "Boost", "Boost", "igraph", "2 edits", "list",
                "list", "move", "move", "move");
    std::printf("%-28s %5s %6s | %8s %8s %8s %5s %8s | %13s | %6s | %13s | %8s | %8s %6s | %8s %6s %6s |\n", "", "", "", "us", "us",
                "us", "", "us", "/ work out", "/audit", "/ edit", "/ raise", "of 8, us", "/ 8", "over, us", "/audit", "/ w.o.");
    int bad = 0;
    for (size_t links : {128, 256, 1024, 4032}) {
        Hall h = random_hall(64, links, random);
        if (argc > 1) write_links((std::string(argv[1]) + "/random" + std::to_string(links)).c_str(), h);
        bad += run("64 stops, random", h, HALL_LARGEST_PASSING);
    }
    bad += run("8 x 8 two-way grid", grid(8, random), HALL_LARGEST_PASSING);
    bad += run("64 stops, ring and bypasses", ring(64, random), 200);
    bad += run("16 stops, random", random_hall(16, 40, random), HALL_LARGEST_PASSING);

    std::printf("\n%-28s %5s %14s | %32s | %32s | %22s | %6s |\n", "with passing times", "links", "useful", "without", "with",
                "with / without", "Boost");
    std::printf("%-28s %5s %7s %6s | %8s %8s %8s %5s | %8s %8s %8s %5s | %8s %6s %6s | %6s |\n", "", "", "without", "with", "work out",
                "audit", "edit", "rows", "work out", "audit", "edit", "rows", "work out", "audit", "edit", "/ w.o.");
    for (const Named &f : family) bad += measure_passing(f.name, f.hall, with_passing(f.hall, f.most, random), random);

    std::printf("\n%-28s %5s %6s %6s | %8s %8s %6s | %6s |\n", "routes, first to last stop", "links", "routes", "bytes", "audit", "list",
                "list", "igraph");
    std::printf("%-28s %5s %6s %6s | %8s %8s %6s | %6s |\n", "", "", "", "", "us", "us", "/audit", "/ list");
    bad += measure_list("line of 64 stops", line(64));
    bad += measure_list("12 ways at its beginning", twelve_ways(64, 0));
    bad += measure_list("12 ways at its end", twelve_ways(64, 56));
    bad += measure_list("at its beginning, all links", all_links(twelve_ways(64, 0)));
    bad += measure_list("at its beginning, passing", twelve_ways(64, 0, 1));

    std::printf("\n%-28s %5s %6s %7s | %8s %8s %8s %5s | %6s |\n", "with crowded pairs", "links", "useful", "crowded", "work out", "audit",
                "edit", "rows", "Boost");
    std::printf("%-28s %5s %6s %7s | %8s %8s %8s %5s | %6s |\n", "", "", "", "pairs", "us", "us", "us", "", "/ w.o.");
    bad += measure_crowded("8 x 8 grid, all costs 1", even_grid(8), random);
    bad += measure_crowded("64 stops, ways that double", doubling(64), random);
    return bad ? 1 : 0;
}
