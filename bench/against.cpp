// Work out, audit, image read and edit of an older library beside those of this one, in one process and on the same halls, by the
// functions of calls.c with `old_` and `new_` before their names. Times are the least of many runs, taken in turn; for each hall a line
// with the times of both, and whether the tables agree. Passing times are 0, as in an older library that is lent none. One with another
// scale has its tables moved over before they are compared.
#include "calls.h"
#include "halls.h"

using Scale = uint64_t();
using Whole = uint32_t(lent_tables);
using Read = uint32_t(lent_tables, const uint8_t *image, size_t length);
using Insert = uint32_t(lent_tables, uint64_t from, uint64_t to, uint64_t c);
using Delete = uint32_t(lent_tables, uint64_t from, uint64_t to);

extern "C" {
Scale old_call_scale, new_call_scale;
Whole old_call_work_out, old_call_audit, new_call_work_out, new_call_audit;
Read old_call_image_read, new_call_image_read;
Insert old_call_insert, new_call_insert;
Delete old_call_delete, new_call_delete;
decltype(hall_move_over) new_hall_move_over;
decltype(hall_image_write) new_hall_image_write;
}

// One library's calls.
struct Calls {
    Whole *work_out, *audit;
    Read *image_read;
    Insert *insert;
    Delete *remove;
};

static const Calls OLD = {old_call_work_out, old_call_audit, old_call_image_read, old_call_insert, old_call_delete};
static const Calls NEW = {new_call_work_out, new_call_audit, new_call_image_read, new_call_insert, new_call_delete};

static lent_tables lent(Hall &h) {
    return {h.n, h.cost.data(), h.passing.data(), h.time.data(), h.ways.data(), h.share.data(), h.score.data()};
}

struct Times {
    double work_out = 1e300, audit = 1e300, read = 1e300, edits = 0;
};

// The image is that of the hall. Says whether its read was accepted.
static bool whole(const Calls &calls, Hall &h, const std::vector<uint8_t> &image, Times &best) {
    lent_tables t = lent(h);
    uint32_t read = HALL_NO_KIND;
    best.work_out = std::min(best.work_out, least_time(20, [&] { calls.work_out(t); }));
    best.audit = std::min(best.audit, least_time(20, [&] { calls.audit(t); }));
    best.read = std::min(best.read, least_time(20, [&] { read = calls.image_read(t, image.data(), image.size()); }));
    return read == HALL_ACCEPTED;
}

static std::vector<uint8_t> image_of(Hall &h) {
    std::vector<uint8_t> image(HALL_LONGEST_IMAGE);
    hall_tables t = h.tables();
    image.resize(new_hall_image_write(t.n, HALL_TABLES(t), image.data(), image.size()).length);
    return image;
}

static bool same_tables(const Hall &a, const Hall &b) {
    return a.cost == b.cost && a.passing == b.passing && a.time == b.time && a.ways == b.ways && a.share == b.share && a.score == b.score;
}

// The delete of a link and its insert again, with the shares and scores of the library's own scale put in place before: keeps their
// least time so far, and says whether both were accepted and left the tables as worked out.
static bool edit(const Calls &calls, Hall &h, const Hall &worked, const Link &l, double &least) {
    lent_tables t = lent(h);
    uint32_t out = 0, in = 0;
    h.share = worked.share;
    h.score = worked.score;
    least = std::min(least, time_of([&] {
                         out = calls.remove(t, l.from, l.to);
                         in = calls.insert(t, l.from, l.to, l.cost);
                     }));
    return out == HALL_ACCEPTED && in == HALL_ACCEPTED && same_tables(h, worked);
}

// The mean time of an edit of these links, each with its least time of twenty, on tables as each library worked them out; says
// whether all were accepted.
static bool edits(const Hall &by_old, const Hall &by_new, const std::vector<Link> &links, Times &old, Times &now) {
    Hall h = by_new;
    bool taken = true;
    for (const Link &l : links) {
        double before = 1e300, after = 1e300;
        for (int round = 0; round < 20; round++)
            taken = edit(OLD, h, by_old, l, before) && edit(NEW, h, by_new, l, after) && taken;
        old.edits += before / (2 * links.size());
        now.edits += after / (2 * links.size());
    }
    return taken;
}

// Moves tables over where the older library has another scale.
static bool moved(Hall &h) {
    hall_tables t = h.tables();
    return old_call_scale() == new_call_scale() || new_hall_move_over(t.n, HALL_OLD_TABLES(t)) == HALL_ACCEPTED;
}

static int measure(const std::string &name, Hall h, std::mt19937 &random) {
    Hall other = h;
    if (NEW.work_out(lent(h)) != HALL_ACCEPTED || OLD.work_out(lent(other)) != HALL_ACCEPTED) return 1;
    const std::vector<uint8_t> image = image_of(h);
    Times old, now;
    bool same = true;
    for (int round = 0; round < 50; round++) same = whole(OLD, h, image, old) && whole(NEW, h, image, now) && same;
    std::vector<Link> links = links_of(h);
    std::shuffle(links.begin(), links.end(), random);
    if (links.size() > 32) links.resize(32);
    same = edits(other, h, links, old, now) && moved(other) && same_tables(h, other) && same;
    std::printf("%s, %zu links;%.2f;%.2f;%.2f;%.2f;%.2f;%.2f;%.2f;%.2f;%s\n", name.c_str(), links_of(h).size(), old.work_out,
                now.work_out, old.audit, now.audit, old.read, now.read, old.edits, now.edits, same ? "agree" : "DIFFER");
    return same ? 0 : 1;
}

int main() {
    std::mt19937 random(7);
    int bad = 0;
    for (size_t links : {128, 256, 1024, 4032}) bad += measure("64 stops, random", random_hall(64, links, random), random);
    bad += measure("8 x 8 two-way grid", grid(8, random), random);
    bad += measure("64 stops, ring and bypasses", ring(64, random), random);
    bad += measure("16 stops, random", random_hall(16, 40, random), random);
    return bad ? 1 : 0;
}
