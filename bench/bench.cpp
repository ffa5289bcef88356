// Each call through the proved library and through the plain program, in one run on the same meshes; after each the two hold the same.
// Prints a line for each: the mesh, the call, both times in microseconds and their ratio; then the same in milliseconds for questions to the engine, and what a book takes for each cell.
#include "daybook.h"
#include "plain.hpp"
#include <chrono>
#include <cstdio>
#include <cstdlib>
#include <cstring>
#include <string>

using Mesh = std::vector<std::vector<uint32_t>>;
struct Named { std::string name; unsigned dim, points; Mesh cells; bool level; };

static Named sheet(unsigned n) {
    Mesh cells;
    unsigned w = n + 1;
    for (unsigned y = 0; y < n; y++)
        for (unsigned x = 0; x < n; x++) {
            uint32_t a = y * w + x;
            cells.push_back({a, a + 1, a + w + 1});
            cells.push_back({a, a + w, a + w + 1});
        }
    return {"square " + std::to_string(n), 2, w * w, cells, true};
}

static Named box(unsigned n, unsigned m, unsigned k) {
    Mesh cells;
    auto at = [&](unsigned x, unsigned y, unsigned z) { return uint32_t((z * (m + 1) + y) * (n + 1) + x); };
    const unsigned way[6][2] = {{1, 3}, {1, 5}, {2, 3}, {2, 6}, {4, 5}, {4, 6}};
    for (unsigned z = 0; z < k; z++)
        for (unsigned y = 0; y < m; y++)
            for (unsigned x = 0; x < n; x++)
                for (auto &s : way) {
                    auto p = [&](unsigned b) { return at(x + (b & 1), y + (b >> 1 & 1), z + (b >> 2)); };
                    cells.push_back({p(0), p(s[0]), p(s[1]), p(7)});
                }
    return {"box " + std::to_string(n) + "x" + std::to_string(m) + "x" + std::to_string(k), 3, (n + 1) * (m + 1) * (k + 1), cells, true};
}

// Random tetrahedra; compare/meshes.py has the same.
static Named scattered(unsigned count, unsigned points) {
    uint32_t last = 7;
    Mesh cells;
    while (cells.size() < count) {
        std::vector<uint32_t> c;
        while (c.size() < 4) {
            last = last * 1664525u + 1013904223u;
            uint32_t v = uint32_t(uint64_t(last) * points >> 32);
            if (std::find(c.begin(), c.end(), v) == c.end()) c.push_back(v);
        }
        cells.push_back(c);
    }
    return {"random " + std::to_string(count), 3, points, cells, true};
}

static Named fan(unsigned count) {
    Mesh cells;
    for (uint32_t k = 1; k <= count; k++) cells.push_back({0, k, k + 1});
    return {"fan " + std::to_string(count), 2, count + 2, cells, false};
}

// Tetrahedra one after another around vertex 0.
static Named solid_fan(unsigned count) {
    Mesh cells;
    for (uint32_t k = 1; k <= count; k++) cells.push_back({0, k, k + 1, k + 2});
    return {"fan3 " + std::to_string(count), 3, count + 3, cells, false};
}

// Vertex 0 with every three of so many others.
static Named bunch(unsigned others) {
    Mesh cells;
    for (uint32_t a = 1; a <= others; a++)
        for (uint32_t b = a + 1; b <= others; b++)
            for (uint32_t c = b + 1; c <= others; c++) cells.push_back({0, a, b, c});
    return {"bunch " + std::to_string(cells.size()), 3, others + 1, cells, false};
}

// The same mesh with its cells in another order.
static Named shuffled(Named m) {
    uint32_t last = 7;
    for (size_t left = m.cells.size(); left > 1; left--) {
        last = last * 1664525u + 1013904223u;
        std::swap(m.cells[left - 1], m.cells[uint64_t(last) * left >> 32]);
    }
    m.name = m.name.substr(0, m.name.find(' ')) + " shuffled";
    return m;
}

static std::vector<uint8_t> file_of(const Named &m) {
    std::vector<bool> bits;
    auto put = [&](uint32_t x, unsigned width) { while (width--) bits.push_back(x >> width & 1); };
    put(m.dim, 2), put(m.points, 14), put(uint32_t(m.cells.size()), 13), put(0, 3);
    for (auto &c : m.cells)
        for (uint32_t v : c) put(v, 13);
    while (bits.size() % 8) bits.push_back(false);
    std::vector<uint8_t> out(bits.size() / 8);
    for (size_t i = 0; i < bits.size(); i++) out[i / 8] |= uint8_t(bits[i]) << (7 - i % 8);
    return out;
}

static double now() {
    return std::chrono::duration<double, std::micro>(std::chrono::steady_clock::now().time_since_epoch()).count();
}

// The best of some runs, each on a fresh copy; more of them as long as they take less than 50 ms together.
template <class Copy, class Run> double best(Copy copy, Run run, int times) {
    double least = 1e300, spent = 0;
    for (int k = 0; k < times || spent < 50000; k++) {
        auto state = copy();
        double from = now();
        run(state);
        double took = now() - from;
        least = std::min(least, took);
        spent += took;
    }
    return least;
}

// The same for two that are held to each other, by turns, so that a machine that changes its pace changes both.
template <class Copy, class First, class Second> std::pair<double, double> both(Copy copy, First first, Second second, int times) {
    std::pair<double, double> least = {1e300, 1e300};
    for (int k = 0; k < times; k++) {
        least.first = std::min(least.first, best(copy, first, 1));
        least.second = std::min(least.second, best(copy, second, 1));
    }
    return least;
}

static void must(bool ok, const char *what) {
    if (!ok) {
        std::fprintf(stderr, "bench: %s\n", what);
        std::exit(1);
    }
}

// Where a call would say that its book is broken; none here is.
static uint32_t key;
static size_t position;

// The loaded book with these relations, in a room of so many words.
static std::vector<uint32_t> book_with(const Named &m, const std::vector<std::pair<unsigned, unsigned>> &asked, size_t room = 1 << 21) {
    std::vector<uint32_t> book(room);
    auto file = file_of(m);
    uint32_t cell;
    must(daybook_load(file.data(), file.size(), book.data(), room, &cell) == 0, "load");
    for (auto a : asked) must(daybook_ask(book.data(), room, a.first, a.second, &key, &position) == 0, "ask");
    return book;
}

// The checks of a whole book and nothing else: a drop of D->0 is refused right after them.
static void check(std::vector<uint32_t> &book, size_t room) {
    must(daybook_drop(book.data(), room, book[0] >> 30, 0, &key, &position) == DAYBOOK_CELLS_KEPT, "checks");
}

// The relations of a mesh that are not there after a load, by ascending key; on the fan without d->d, which is quadratic by its size.
static std::vector<std::pair<unsigned, unsigned>> relations(const Named &m) {
    std::vector<std::pair<unsigned, unsigned>> out;
    for (unsigned d = 0; d <= m.dim; d++)
        for (unsigned e = 0; e <= m.dim; e++)
            if (!(d == m.dim && e == 0) && (m.level || d != e || d == 0)) out.push_back({d, e});
    return out;
}

// The two hold the same relations, row for row.
static bool same(const std::vector<uint32_t> &book, const plain::Book &plainly) {
    size_t at = 5;
    for (unsigned k = 0; k < 16; k++) {
        auto found = plainly.held.find(k);
        if ((found != plainly.held.end()) != bool(book[1] >> k & 1)) return false;
        if (found == plainly.held.end()) continue;
        for (auto *part : {&found->second.offsets, &found->second.indices}) {
            if (at + part->size() > book[4] || !std::equal(part->begin(), part->end(), book.begin() + at)) return false;
            at += part->size();
        }
    }
    return at == book[4];
}

static plain::Book loaded(const Named &m) {
    plain::Book b;
    must(plain::load(file_of(m), b), "plain load");
    return b;
}

static void line(const Named &m, const std::string &what, size_t words, double ours, double theirs) {
    std::printf("%-12s %-10s %9zu %10.2f %10.2f %6.2f\n", m.name.c_str(), what.c_str(), words, ours, theirs, ours / theirs);
    std::fflush(stdout);
}

// Asks for all of these in order, one by one or by one list, on a book that holds what stands in `before` but not what stands in `dropped`, lent the words it
// ends up using and `spare` more.
static void compare(const Named &m, const std::string &what, const std::vector<std::pair<unsigned, unsigned>> &before,
                    const std::vector<std::pair<unsigned, unsigned>> &asked, size_t spare, int times, bool by_list = false,
                    const std::vector<std::pair<unsigned, unsigned>> &dropped = {}) {
    auto all = before;
    all.insert(all.end(), asked.begin(), asked.end());
    size_t room = book_with(m, all)[4] + spare;
    auto book = book_with(m, before, room);
    plain::Book plainly = loaded(m);
    for (auto a : before) must(plain::ask(plainly, a.first, a.second), "plain ask");
    for (auto a : dropped) must(daybook_drop(book.data(), room, a.first, a.second, &key, &position) == 0 && plain::drop(plainly, a.first, a.second), "drop");
    std::vector<uint32_t> pairs, answers(asked.size());
    for (auto a : asked) pairs.push_back(a.first), pairs.push_back(a.second);
    auto accepted = [&] { return std::count(answers.begin(), answers.end(), 0u) == long(answers.size()); };
    auto ask = [&](std::vector<uint32_t> &b) {
        if (by_list) return must(daybook_ask_list(b.data(), room, pairs.data(), pairs.size(), answers.data(), answers.size()) == 0 && accepted(), "list");
        for (auto a : asked) must(daybook_ask(b.data(), room, a.first, a.second, &key, &position) == 0, "ask");
    };
    auto ask_plainly = [&](plain::Book &b) {
        if (by_list) return must(plain::ask_list(b, pairs, answers) && accepted(), "plain list");
        for (auto a : asked) must(plain::ask(b, a.first, a.second), "plain ask");
    };
    line(m, what, room, best([&] { return book; }, ask, times), best([&] { return plainly; }, ask_plainly, times));
    ask(book), ask_plainly(plainly);
    must(same(book, plainly), "the two programs hold different relations");
}

// d->0 where 0->d keeps N_d and d->0 was dropped, so that the entities are counted before they are written; and what the count alone takes, from a call that
// is refused because the book lies about N_d, less its checks, beside the plain program's Build. N_d has a bound, and a mesh that reaches it cannot lie upwards.
static void compare_kept(const Named &m, unsigned d, int times) {
    const std::string name = std::to_string(d) + "->0";
    compare(m, name + " kept", {{0, d}}, {{d, 0}}, 0, times, false, {{d, 0}});
    auto book = book_with(m, {{0, d}});
    must(daybook_drop(book.data(), book.size(), d, 0, &key, &position) == 0, "drop");
    if (book[1 + d] == m.cells.size() * (m.dim == 2 ? 3 : d == 1 ? 6 : 4)) return;
    const size_t room = book[4];
    book[1 + d]++;
    const plain::Book plainly = loaded(m);
    auto nothing = [] { return 0; };
    size_t rows = 0;
    auto refused = both(nothing, [&](int) { must(daybook_make(book.data(), room, d, 0, &key, &position) == DAYBOOK_NUMBER_DIFFERS, "a count that differs"); },
                        [&](int) { check(book, room); }, times);
    double built = best(nothing, [&](int) { rows = plain::build(plainly, d).rows(); }, times);
    must(rows + 1 == book[1 + d], "the two programs count different entities");
    line(m, name + " count", room, refused.first - refused.second, built);
}

// A drop from a book that holds all relations, of the words that they take; what is left of it without the checks, beside a memmove of the same
// words and a memset of those that are freed; and the checks alone.
static void compare_drop(const Named &m, unsigned d, unsigned e) {
    const std::string name = std::to_string(d) + "->" + std::to_string(e);
    const size_t room = book_with(m, relations(m))[4];
    const auto book = book_with(m, relations(m), room);
    plain::Book plainly = loaded(m);
    for (auto r : relations(m)) must(plain::ask(plainly, r.first, r.second), "plain ask");
    size_t from = 5, size = 0;
    for (const auto &[k, r] : plainly.held) {
        size = r.offsets.size() + r.indices.size();
        if (k == plain::key(d, e)) break;
        from += size;
    }
    std::vector<uint32_t> lent(room); // one for all, since a time depends on where the words lie
    auto copy = [&] { return std::copy(book.begin(), book.end(), lent.begin()); };
    auto nothing = [] { return 0; };
    auto drop = [&](auto) { must(daybook_drop(lent.data(), room, d, e, &key, &position) == 0, "drop"); };
    auto move = [&](auto) {
        std::memmove(&lent[from], lent.data() + from + size, (room - from - size) * sizeof lent[0]);
        std::memset(&lent[room - size], 0, size * sizeof lent[0]);
    };
    auto ours = both(copy, drop, [&](auto) { check(lent, room); }, 9);
    line(m, "drop " + name, room, ours.first, best([&] { return plainly; }, [&](plain::Book &b) { must(plain::drop(b, d, e), "plain drop"); }, 9));
    line(m, "checks", room, ours.second, best(nothing, [&](int) { must(plain::right(plainly), "plain checks"); }, 9));
    line(m, "move " + name, room, ours.first - ours.second, best(copy, move, 9));
    auto after = [&](auto run) { return run(copy()), lent; };
    const auto dropped = after(drop), moved = after(move);
    must(plain::drop(plainly, d, e) && same(dropped, plainly), "the two programs hold different relations after a drop");
    must(std::equal(dropped.begin() + 5, dropped.end(), moved.begin() + 5), "a drop is no memmove and memset");
}

// The Euler number of a book that holds these relations, of the words that they take; and on a short one, where it can be told from the checks, what it takes
// beyond them, beside the plain program's marks.
static void compare_euler(const Named &m, const std::string &what, const std::vector<std::pair<unsigned, unsigned>> &held, bool is_short) {
    const size_t room = book_with(m, held)[4];
    auto book = book_with(m, held, room);
    plain::Book plainly = loaded(m);
    for (auto r : held) must(plain::ask(plainly, r.first, r.second), "plain ask");
    int64_t ours = 0, theirs = 0, used = 0;
    const int times = is_short ? 61 : 15;
    auto nothing = [] { return 0; };
    auto number = [&](int) { must(daybook_euler(book.data(), room, &ours, &key, &position) == 0, "Euler number"); };
    auto called = both(nothing, number, [&](int) { check(book, room); }, times);
    line(m, what, room, called.first, best(nothing, [&](int) { must(plain::euler(plainly, theirs), "plain Euler number"); }, times));
    must(ours == theirs, "the two programs give different Euler numbers");
    if (!is_short) return;
    line(m, "its marks", room, called.first - called.second, best(nothing, [&](int) { used = plain::used_vertices(plainly); }, times));
    must(used > 0 && used <= m.points, "no vertex, or more than there are");
}

// Load and write of a mesh, in a book of the words that its cells take.
static void compare_files(const Named &m) {
    auto file = file_of(m);
    std::vector<uint32_t> book(6 + m.cells.size() * (m.dim + 2));
    plain::Book plainly;
    uint32_t cell;
    auto nothing = [] { return 0; };
    line(m, "load", book.size(), best(nothing, [&](int) { must(daybook_load(file.data(), file.size(), book.data(), book.size(), &cell) == 0, "load"); }, 9),
         best(nothing, [&](int) { must(plain::load(file, plainly), "plain load"); }, 9));
    must(same(book, plainly), "the two programs load different cells");
    std::vector<uint8_t> ours(file.size()), theirs;
    size_t length = 0;
    auto write = [&](int) { must(daybook_write(book.data(), book.size(), ours.data(), ours.size(), &length, &key, &position) == 0, "write"); };
    line(m, "write", book.size(), best(nothing, write, 9),
         best(nothing, [&](int) { must(plain::write(plainly, theirs), "plain write"); }, 9));
    must(ours == theirs && length == ours.size(), "the two programs write different files");
}

// The same mesh with every second cell spoiled, by turns: a vertex out of range, where one can be, or else twice; a vertex twice; the cell before it again, its vertices turned about.
static Named spoiled(Named m) {
    for (size_t c = 1; c < m.cells.size(); c += 2) {
        auto &cell = m.cells[c];
        if (c % 6 == 1 && m.points < 8192) cell.back() = m.points;
        else if (c % 6 == 5) cell.assign(m.cells[c - 1].rbegin(), m.cells[c - 1].rend());
        else cell.front() = cell.back();
    }
    return m;
}

// The same mesh with every cell the first one again.
static Named repeated(Named m) {
    for (auto &cell : m.cells) cell = m.cells[0];
    return m;
}

// A salvage, lent as many bytes as the file has and two words for each cell of its head.
static void compare_salvage(const Named &m, const std::string &what, const std::vector<uint8_t> &file, size_t dropped) {
    std::vector<uint8_t> ours(file.size(), 7), theirs = ours;
    std::vector<uint32_t> listed(2 * m.cells.size(), 7), listed_plainly = listed;
    plain::Salvaged said{};
    size_t length = 0, count = 0;
    uint32_t spare = 7, pad = 7, wrong_length = 7;
    auto nothing = [] { return 0; };
    auto salvage = [&](int) {
        must(daybook_salvage(file.data(), file.size(), ours.data(), ours.size(), listed.data(), listed.size(), &length, &count, &spare, &pad, &wrong_length) == 0, "salvage");
    };
    auto took = both(nothing, salvage, [&](int) { must(plain::salvage(file, theirs, listed_plainly, said) == 0, "plain salvage"); }, 9);
    line(m, what, listed.size(), took.first, took.second);
    must(ours == theirs && listed == listed_plainly, "the two programs save different cells");
    must(length == said.length && count == said.dropped && count == dropped, "the two programs drop different numbers of cells");
    must(spare == said.spare && pad == said.pad && wrong_length == said.wrong_length, "the two programs say different things of a file");
}

// A salvage of a mesh's file as it is, of the same cut in the middle, and of one with every second cell spoiled.
static void compare_salvages(const Named &m) {
    const auto file = file_of(m), half = std::vector<uint8_t>(file.begin(), file.begin() + file.size() / 2);
    compare_salvage(m, "salvage", file, 0);
    compare_salvage(m, "its half", half, m.cells.size() - (half.size() - 4) * 8 / (13 * (m.dim + 1)));
    compare_salvage(m, "spoiled", file_of(spoiled(m)), m.cells.size() / 2);
}

// Counts all over the turn; about each sixteenth is masked, and as many are 0 or -32,768, so that there are steps of 0 and of half a turn.
static std::vector<int32_t> counts_of(const Named &m) {
    uint32_t last = 7;
    std::vector<int32_t> out(m.points);
    for (int32_t &count : out) {
        last = last * 1664525u + 1013904223u;
        uint32_t kind = last >> 8 & 31;
        count = kind < 2 ? DAYBOOK_MASKED : kind == 2 ? 0 : kind == 3 ? -32768 : int32_t(last >> 16) - 32768;
    }
    return out;
}

// The lists that phase closures write, as long as a book asks, with other values in them.
struct Lists {
    std::vector<int32_t> closures;
    std::vector<double> steps;
    std::vector<uint8_t> masked;
    Lists(size_t faces, size_t edges) : closures(faces, 7), steps(edges, 7), masked(edges, 7) {}
};

// The two programs wrote the same, the floats held to each other by their bits.
static bool same(const Lists &a, const Lists &b) {
    return a.closures == b.closures && a.masked == b.masked && std::memcmp(a.steps.data(), b.steps.data(), a.steps.size() * sizeof(double)) == 0;
}

// Phase closures of a mesh, in a book that holds D->0, 1->0 and 2->0, of the words that they take.
static void compare_closures(const Named &m) {
    const std::vector<std::pair<unsigned, unsigned>> needed = {{1, 0}, {2, 0}};
    const size_t room = book_with(m, needed)[4];
    const auto book = book_with(m, needed, room);
    plain::Book plainly = loaded(m);
    for (auto a : needed) must(plain::ask(plainly, a.first, a.second), "plain ask");
    const auto counts = counts_of(m);
    Lists ours(plainly.counts[2], plainly.counts[1]), theirs = ours;
    auto nothing = [] { return 0; };
    auto close = [&](int) {
        must(daybook_closures(book.data(), room, counts.data(), counts.size(), ours.closures.data(), ours.closures.size(), ours.steps.data(), ours.steps.size(),
                              ours.masked.data(), ours.masked.size(), &key, &position) == 0, "closures");
    };
    auto close_plainly = [&](int) { must(plain::closures(plainly, counts, theirs.closures, theirs.steps, theirs.masked), "plain closures"); };
    line(m, "closures", room, best(nothing, close, 9), best(nothing, close_plainly, 9));
    must(same(ours, theirs), "the two programs write different closures");
}

// Coordinates without order, three for each vertex; one in sixteen is 0.0 or -0.0, so that both zeros are met.
static std::vector<double> coordinates_of(const Named &m) {
    uint32_t last = 7;
    std::vector<double> out(3 * size_t(m.points));
    for (double &x : out) {
        last = last * 1664525u + 1013904223u;
        uint32_t kind = last >> 8 & 31;
        x = kind == 0 ? 0.0 : kind == 1 ? -0.0 : (int32_t(last >> 4) - (1 << 27)) / 1024.0;
    }
    return out;
}

// The box of a cell and that of the whole mesh, with three axes, in a book that holds D->0 alone; and what each takes beyond the checks of the book, beside the plain
// program's look at the coordinates and its box.
static void compare_boxes(const Named &m) {
    const size_t room = book_with(m, {})[4];
    auto book = book_with(m, {}, room);
    const plain::Book plainly = loaded(m);
    const auto coordinates = coordinates_of(m);
    const uint32_t last = uint32_t(m.cells.size()) - 1;
    const int times = 61;
    plain::Box ours{}, theirs{};
    uint32_t some = 0;
    bool found = false;
    auto nothing = [] { return 0; };
    auto same_ends = [&] { return std::memcmp(ours.data(), theirs.data(), sizeof ours) == 0; };
    auto checks = [&](int) { check(book, room); };
    auto box = [&](int) { must(daybook_box(book.data(), room, coordinates.data(), coordinates.size(), 3, m.dim, last, ours.data(), &key, &position) == 0, "box"); };
    auto whole = [&](int) {
        must(daybook_whole_box(book.data(), room, coordinates.data(), coordinates.size(), 3, ours.data(), &some, &key, &position) == 0 && some == 1, "whole box");
    };
    auto called = both(nothing, box, checks, times);
    line(m, "box", room, called.first, best(nothing, [&](int) { must(plain::box(plainly, coordinates, 3, m.dim, last, theirs), "plain box"); }, times));
    must(same_ends(), "the two programs give different boxes of a cell");
    line(m, "box floats", room, called.first - called.second, best(nothing, [&](int) {
        must(plain::lent(plainly, coordinates, 3), "plain coordinates");
        theirs = plain::entity_box(plainly, coordinates, 3, m.dim, last);
    }, times));
    must(same_ends(), "the two programs give different boxes of a cell");
    called = both(nothing, whole, checks, times);
    line(m, "whole box", room, called.first, best(nothing, [&](int) { must(plain::whole_box(plainly, coordinates, 3, theirs, found) && found, "plain whole box"); }, times));
    must(same_ends(), "the two programs give different boxes of the whole mesh");
    line(m, "all floats", room, called.first - called.second, best(nothing, [&](int) {
        must(plain::lent(plainly, coordinates, 3) && plain::used_box(plainly, coordinates, 3, theirs), "plain whole box");
    }, times));
    must(same_ends(), "the two programs give different boxes of the whole mesh");
}

// What the sheet writes, with room for any rim and other values in it.
struct Outline {
    std::vector<uint32_t> across, vertices, edges;
    std::vector<uint8_t> rim;
    size_t length = 0, vertex_count = 0, edge_count = 0;
    uint32_t why = 0, which = 0;
    explicit Outline(size_t cells) : across(3 * cells, 7), vertices(DAYBOOK_RIM_VERTICES, 7), edges(DAYBOOK_RIM_EDGES, 7), rim(DAYBOOK_RIM_BYTES, 7) {}
};

// The sheet of a mesh, in a book that holds 2->0, 1->0, 2->1 and 1->2, of the words that they take, with this number for an answer; and what it takes beyond the checks of the book, beside
// the plain program's tests and lists.
static void compare_sheet(const Named &m, unsigned number) {
    auto book = book_with(m, {{1, 2}});
    plain::Book plainly = loaded(m);
    must(plain::ask(plainly, 1, 2) && plain::drop(plainly, 0, 1), "plain ask and drop");
    must(daybook_drop(book.data(), book.size(), 0, 1, &key, &position) == 0 && same(book, plainly), "the two programs hold different relations");
    const size_t room = book[4];
    book.resize(room);
    Outline ours(m.cells.size()), theirs = ours;
    plain::Rim said{};
    plain::NotSheet fault{};
    auto nothing = [] { return 0; };
    auto sheet = [&](int) {
        must(daybook_sheet(book.data(), room, ours.across.data(), ours.across.size(), ours.rim.data(), ours.rim.size(), ours.vertices.data(), ours.vertices.size(), ours.edges.data(),
                           ours.edges.size(), &ours.length, &ours.vertex_count, &ours.edge_count, &ours.why, &ours.which, &key, &position) == number, "sheet");
    };
    auto sheet_plainly = [&](int) { must(plain::sheet(plainly, theirs.across, theirs.rim, theirs.vertices, theirs.edges, said, fault) == number, "plain sheet"); };
    auto outline_plainly = [&](int) { must(plain::outline(plainly, theirs.across, theirs.rim, theirs.vertices, theirs.edges, said, fault) == number, "plain lists"); };
    auto same_lists = [&] { return ours.across == theirs.across && ours.rim == theirs.rim && ours.vertices == theirs.vertices && ours.edges == theirs.edges; };
    const int times = 61;
    auto called = both(nothing, sheet, [&](int) { check(book, room); }, times);
    line(m, "sheet", room, called.first, best(nothing, sheet_plainly, times));
    must(same_lists(), "the two programs write different lists");
    line(m, "its lists", room, called.first - called.second, best(nothing, outline_plainly, times));
    must(same_lists(), "the two programs write different lists");
    must(ours.length == said.length && ours.vertex_count == said.vertices && ours.edge_count == said.edges, "the two programs say different things of a rim");
    must(ours.why == fault.why && ours.which == fault.which, "the two programs say different things of what is no sheet");
}

// The engine of both programs, asked one question; the number that both give, and the same answer where they accept.
static uint32_t same_answer(const std::vector<uint32_t> &book, const plain::Book &plainly, unsigned d, unsigned e, uint32_t i, uint32_t j) {
    uint32_t yes = 7;
    bool yes_plainly = false;
    uint32_t number = daybook_plain(book.data(), book.size(), d, e, i, j, &yes, &key, &position);
    must(number == plain::engine(plainly, d, e, i, j, yes_plainly), "the two engines give different numbers");
    must(yes == (number ? 7u : uint32_t(yes_plainly)), "the two engines give different answers");
    return number;
}

// Questions to both engines, in a book with D->0 alone: for each d and e, one past D too, the first number, the middle one, the last and one past it.
static void compare_answers(const std::vector<uint32_t> &book, const plain::Book &plainly, const std::array<uint32_t, 4> &counts) {
    for (unsigned d = 0; d <= plainly.dim + 1; d++)
        for (unsigned e = 0; e <= plainly.dim + 1; e++) {
            const bool over = d > plainly.dim || e > plainly.dim;
            const uint32_t rows = over ? 2 : counts[d], past = over ? 2 : counts[e];
            for (uint32_t i : {0u, rows / 2, rows - 1, rows})
                for (uint32_t j : {0u, past / 2, past - 1, past})
                    must(same_answer(book, plainly, d, e, i, j) == (over ? 12 : i == rows ? 17 : j == past ? 19 : 0), "another number than the entities give");
        }
}

// The relations that the engine is asked about: 0->0, D->D, and all between, where it has to number entities, once for either direction.
static std::vector<std::pair<unsigned, unsigned>> asked_of_engine(unsigned dim) {
    std::vector<std::pair<unsigned, unsigned>> out = {{0, 0}};
    for (unsigned d = 1; d < dim; d++)
        for (unsigned e = d; e < dim; e++) out.push_back({d, e});
    out.push_back({dim, dim});
    return out;
}

// The longest questions to the engine, those about the last entities, in a book that holds these relations, of the words that they take. In milliseconds.
static void compare_engine(const Named &m, const std::string &what, const std::vector<std::pair<unsigned, unsigned>> &held, const std::array<uint32_t, 4> &counts) {
    const size_t room = book_with(m, held)[4];
    const auto book = book_with(m, held, room);
    plain::Book plainly = loaded(m);
    for (auto r : held) must(plain::ask(plainly, r.first, r.second), "plain ask");
    if (held.empty()) compare_answers(book, plainly, counts);
    for (auto asked : asked_of_engine(m.dim)) {
        // the last two, where both are of one dimension, since none is incident to itself
        const unsigned from = asked.first, to = asked.second;
        const uint32_t j = counts[to] - 1, i = from == to ? j - 1 : counts[from] - 1;
        uint32_t yes = 0;
        bool yes_plainly = false;
        auto took = both([] { return 0; }, [&](int) { must(daybook_plain(book.data(), room, from, to, i, j, &yes, &key, &position) == 0, "engine"); },
                         [&](int) { must(plain::engine(plainly, from, to, i, j, yes_plainly) == 0, "plain engine"); }, 5);
        must(yes == uint32_t(yes_plainly), "the two engines give different answers");
        std::printf("%-12s %u->%u %-5s %9zu %10.3f %10.3f %6.2f\n", m.name.c_str(), from, to, what.c_str(), room, took.first / 1000, took.second / 1000, took.first / took.second);
        std::fflush(stdout);
    }
}

// The engine's questions in a book that has only been loaded, and in one that holds all relations.
static void compare_engines(const Named &m) {
    plain::Book whole = loaded(m);
    for (unsigned d = 1; d < m.dim; d++) must(plain::ask(whole, d, 0), "plain ask");
    compare_engine(m, "D->0", {}, whole.counts);
    compare_engine(m, "all", relations(m), whole.counts);
}

// A call on a book of so many words that holds all relations, a million times; the time of one. Each program gives a number for the k-th, and their sums agree.
template <class Ours, class Theirs> void compare_calls(const Named &m, const std::string &what, size_t words, Ours ours, Theirs theirs) {
    const uint32_t calls = 1000000;
    const auto book = book_with(m, relations(m), words);
    plain::Book plainly = loaded(m);
    for (auto r : relations(m)) must(plain::ask(plainly, r.first, r.second), "plain ask");
    uint64_t met = 0, met_plainly = 0;
    auto nothing = [] { return 0; };
    double one = best(nothing, [&](int) {
        met = 0;
        for (uint32_t k = 0; k < calls; k++) met += ours(book, k);
    }, 3);
    double other = best(nothing, [&](int) {
        met_plainly = 0;
        for (uint32_t k = 0; k < calls; k++) met_plainly += theirs(plainly, k);
    }, 3);
    must(met == met_plainly, "the two programs give different answers");
    line(m, what, words, one / calls, other / calls);
}

// Rows of 3->2, and searches in them for the last face, so that all four indices of a row are read.
static void compare_rows(const Named &m, size_t words) {
    const uint32_t cells = uint32_t(m.cells.size());
    compare_calls(m, "row", words,
        [&](const std::vector<uint32_t> &book, uint32_t k) {
            size_t start = 0, count = 0;
            must(daybook_row(book.data(), words, 3, 2, k % cells, &start, &count, &key, &position) == 0, "row");
            return book[start] + count;
        },
        [&](const plain::Book &book, uint32_t k) {
            size_t count = 0;
            const uint32_t *row = plain::row(book, 3, 2, k % cells, count);
            must(row != nullptr, "plain row");
            return *row + count;
        });
    compare_calls(m, "find", words,
        [&](const std::vector<uint32_t> &book, uint32_t k) {
            uint32_t yes = 0;
            size_t read = 0;
            must(daybook_find(book.data(), words, 3, 2, k % cells, book[3] - 1, &yes, &read, &key, &position) == 0, "find");
            return yes + read;
        },
        [&](const plain::Book &book, uint32_t k) {
            bool yes = false;
            size_t read = 0;
            must(plain::find(book, 3, 2, k % cells, book.counts[2] - 1, yes, read), "plain find");
            return yes + read;
        });
}

// What a book takes for each cell: D->0 alone, all relations, and the paper's 4 (D + 2) bytes.
static void memory(const Named &m) {
    double cells = double(m.cells.size());
    std::printf("%-12s %8.1f %8.1f %8u\n", m.name.c_str(), 4 * book_with(m, {})[4] / cells, 4 * book_with(m, relations(m))[4] / cells, 4 * (m.dim + 2));
}

int main() {
    std::printf("%-12s %-10s %9s %10s %10s %6s\n", "mesh", "call", "words", "library us", "plain us", "ratio");
    const std::vector<Named> meshes = {sheet(45), box(8, 8, 10), scattered(4096, 8192), fan(4096)};
    for (const Named &m : meshes) {
        int times = m.level ? 5 : 3;
        compare_files(m);
        for (auto r : relations(m)) compare(m, std::to_string(r.first) + "->" + std::to_string(r.second), plain::needs(m.dim, r.first, r.second), {r}, 0, times);
        compare(m, "all", {}, relations(m), 0, times);
    }
    // all relations, the one that is held after a load among them, by one ask after another and by one list
    for (const Named &m : meshes) {
        auto every = relations(m);
        every.push_back({m.dim, 0});
        std::sort(every.begin(), every.end());
        compare(m, "asks", {}, every, 0, m.level ? 5 : 3);
        compare(m, "list", {}, every, 0, m.level ? 5 : 3, true);
    }
    // relations whose entities are counted first, since another relation keeps their number
    for (const Named &m : meshes)
        for (unsigned d = 1; d < m.dim; d++) compare_kept(m, d, m.level ? 5 : 3);
    // the first relation and the last one dropped from a book that holds all sixteen
    compare_drop(meshes[1], 0, 0);
    compare_drop(meshes[1], 3, 3);
    // Euler numbers, on a book that holds all relations and on one that holds just what they need
    for (const Named &m : meshes) {
        compare_euler(m, "Euler all", relations(m), false);
        std::vector<std::pair<unsigned, unsigned>> needed;
        for (unsigned d = 1; d < m.dim; d++) needed.push_back({d, 0});
        compare_euler(m, "Euler", needed, true);
    }
    // phase closures, on a book that holds just what they need
    for (const Named &m : meshes) compare_closures(m);
    // boxes, on a book that has only been loaded
    for (const Named &m : meshes) compare_boxes(m);
    // sheets, on a book that holds just what they need: the square, a fan with the longest rim, one with an edge more, and the square with a point that no cell uses
    compare_sheet(meshes[0], 0);
    compare_sheet(fan(4094), 0);
    compare_sheet(fan(4095), DAYBOOK_LONG_RIM);
    Named unused = meshes[0];
    unused.name += " +1", unused.points++;
    compare_sheet(unused, DAYBOOK_NOT_SHEET);
    // salvages, without a book; the words are those of the list of cells dropped
    for (const Named &m : meshes) compare_salvages(m);
    compare_salvage(meshes[0], "repeated", file_of(repeated(meshes[0])), meshes[0].cells.size() - 1);
    // from a sixteenth of the size to the whole
    for (unsigned n : {11, 22, 45}) compare(sheet(n), "all", {}, relations(sheet(n)), 0, 5);
    for (unsigned k : {1, 2, 5, 10}) compare(box(8, 8, k), "all", {}, relations(box(8, 8, k)), 0, 5);
    for (unsigned n : {256, 1024, 4096}) compare(scattered(n, 2 * n), "all", {}, relations(scattered(n, 2 * n)), 0, 5);
    for (unsigned n : {11, 22, 45}) compare_closures(sheet(n));
    for (unsigned n : {11, 22, 45}) compare_boxes(sheet(n));
    for (unsigned n : {11, 22, 45}) compare_salvages(sheet(n));
    for (unsigned n : {1, 11, 22, 45}) compare_sheet(sheet(n), 0);
    // what a lent word costs that no relation needs
    for (size_t spare : {0, 1 << 18, 1 << 20}) compare(sheet(45), "0->2", {}, {{0, 2}}, spare, 5);
    // what a row or a search in one costs does not depend on the book
    compare_rows({"1 cell", 3, 4, {{0, 1, 2, 3}}, true}, 1000);
    compare_rows(box(8, 8, 7), 1000000);
    // questions to the engine: full meshes, meshes whose cells all share a vertex, and from two triangles to 4,050
    std::printf("\n%-12s %-10s %9s %10s %10s %6s\n", "mesh", "question", "words", "library ms", "plain ms", "ratio");
    for (const Named &m : {meshes[0], meshes[1], shuffled(meshes[1]), meshes[2], meshes[3], solid_fan(4096), bunch(30), sheet(1), sheet(11), sheet(22)}) compare_engines(m);
    std::printf("\n%-12s %8s %8s %8s\n", "mesh", "D->0", "all", "paper");
    for (const Named &m : meshes) memory(m);
    return 0;
}
