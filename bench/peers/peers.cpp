// Times drawings by the proved call, by plain C of the same moves, and by CGAL's smallest ball of points, in double
// without checks and in exact rationals, on sets that `bench sets FOLDER` wrote:
//
//     peers times FILE..    the median round of each, in microseconds a drawing; the rounds of all take turns
//     peers count FILE..    the calls of each but the exact one, for `bench/counted`
//
// Every answer is compared, within the time: proved and plain C make the moves of the file and come to its M and L, and the
// squared radius of CGAL's ball lies between L and M, the exact one exactly so. CGAL's points are made before the time is
// taken. They are handed over in the order of the rows, not shuffled: CGAL's default algorithm looks for the farthest point
// among all of them, and where the numbers are exact it goes on with its other one, which shuffles by itself.

#include "../../bindings/c/cundarivo.h"
#include "moves.h"
#include <CGAL/Cartesian_d.h>
#include <CGAL/Gmpq.h>
#include <CGAL/Min_sphere_of_points_d_traits_d.h>
#include <CGAL/Min_sphere_of_spheres_d.h>
#include <algorithm>
#include <chrono>
#include <cstdio>
#include <cstdlib>
#include <filesystem>
#include <fstream>
#include <functional>
#include <string>
#include <vector>

namespace {

const int rounds = 31;
const int exact_rounds = 3;
// A round repeats its drawings until it takes at least this long.
const double round_seconds = 0.02;
const double total = 65536;
// How far the rounding of double may take a squared radius out of its bounds.
const double rounding = 1e-9;

struct Set {
    std::vector<int32_t> rows;
    uint32_t moves;
    uint64_t scaled_squared_radius, scaled_lower_bound;
};

struct Sets {
    std::string name;
    int m, n;
    uint32_t budget;
    std::vector<Set> sets;
};

// One of those that are timed: it draws a set, and tells whether the answer is right.
struct Side {
    const char *name;
    int rounds;
    std::function<bool(size_t)> draw;
};

[[noreturn]] void fail(const std::string &message) {
    std::fprintf(stderr, "peers: FAILED: %s\n", message.c_str());
    std::exit(1);
}

Sets read_sets(const std::string &file) {
    std::ifstream input(file);
    Sets all;
    size_t count = 0;
    all.name = std::filesystem::path(file).stem().string();
    input >> all.m >> all.n >> all.budget >> count;
    for (size_t place = 0; place < count && input; place++) {
        Set set;
        input >> set.moves >> set.scaled_squared_radius >> set.scaled_lower_bound;
        set.rows.resize(size_t(all.m) * all.n);
        for (int32_t &coordinate : set.rows) {
            input >> coordinate;
        }
        all.sets.push_back(set);
    }
    if (!input || all.sets.empty()) {
        fail(file + " is no file of sets");
    }
    return all;
}

template <class Answer> bool is_answer_of(const Set &set, const Answer &answer) {
    return answer.moves == set.moves && answer.scaled_squared_radius == set.scaled_squared_radius &&
           answer.scaled_lower_bound == set.scaled_lower_bound;
}

Side proved(const Sets &all) {
    return {"proved", rounds, [&all](size_t place) {
                const Set &set = all.sets[place];
                int64_t centre[CUNDARIVO_CHANNELS];
                uint32_t weights[CUNDARIVO_ROWS];
                auto answer = cundarivo_draw(set.rows.data(), set.rows.size(), size_t(all.m), size_t(all.n), all.budget,
                                             centre, CUNDARIVO_CHANNELS, weights, CUNDARIVO_ROWS);
                return answer.number == 0 && is_answer_of(set, answer);
            }};
}

Side plain(const Sets &all) {
    return {"plain C", rounds, [&all](size_t place) {
                const Set &set = all.sets[place];
                return is_answer_of(set, moves_draw(set.rows.data(), all.m, all.n, all.budget));
            }};
}

// Whether D^2 times the squared radius lies between L and M.
bool is_between(double radius, const Set &set) {
    double square = radius * radius * total * total;
    return square >= double(set.scaled_lower_bound) * (1 - rounding) &&
           square <= double(set.scaled_squared_radius) * (1 + rounding);
}

// The same of an exact radius, which is the root of a rational: the sum of 0 and of a factor times the root of the discriminant.
bool is_between(const CGAL::Gmpq &factor, const CGAL::Gmpq &discriminant, const Set &set) {
    CGAL::Gmpq square = factor * factor * discriminant * CGAL::Gmpq(total) * CGAL::Gmpq(total);
    return square >= CGAL::Gmpq(std::to_string(set.scaled_lower_bound)) &&
           square <= CGAL::Gmpq(std::to_string(set.scaled_squared_radius));
}

template <class Number, int N> struct Ball {
    using Kernel = CGAL::Cartesian_d<Number>;
    using Point = typename Kernel::Point_d;
    using Smallest = CGAL::Min_sphere_of_spheres_d<CGAL::Min_sphere_of_points_d_traits_d<Kernel, Number, N>>;

    static std::vector<std::vector<Point>> points_of(const Sets &all) {
        std::vector<std::vector<Point>> sets;
        for (const Set &set : all.sets) {
            std::vector<Point> points;
            for (auto row = set.rows.begin(); row != set.rows.end(); row += N) {
                std::vector<Number> coordinates(row, row + N);
                points.emplace_back(N, coordinates.begin(), coordinates.end());
            }
            sets.push_back(points);
        }
        return sets;
    }
};

template <int N> Side in_double(const Sets &all) {
    using Ball = Ball<double, N>;
    return {"CGAL double", rounds, [&all, sets = Ball::points_of(all)](size_t place) {
                typename Ball::Smallest ball(sets[place].begin(), sets[place].end());
                return is_between(ball.radius(), all.sets[place]);
            }};
}

template <int N> Side in_rationals(const Sets &all) {
    using Ball = Ball<CGAL::Gmpq, N>;
    return {"CGAL exact", exact_rounds, [&all, sets = Ball::points_of(all)](size_t place) {
                typename Ball::Smallest ball(sets[place].begin(), sets[place].end());
                auto radius = ball.radius();
                return radius.first == 0 && is_between(radius.second, ball.discriminant(), all.sets[place]);
            }};
}

std::vector<Side> sides_of(const Sets &all) {
    switch (all.n) {
    case 2:
        return {proved(all), plain(all), in_double<2>(all), in_rationals<2>(all)};
    case 4:
        return {proved(all), plain(all), in_double<4>(all), in_rationals<4>(all)};
    case 8:
        return {proved(all), plain(all), in_double<8>(all), in_rationals<8>(all)};
    default:
        fail(all.name + ": rows of 2, 4 or 8 channels are compared");
    }
}

// Draws every set so many times; tells whether each answer is right.
bool draw_all(const Side &side, size_t count, int repeats) {
    bool right = true;
    for (int repeat = 0; repeat < repeats; repeat++) {
        for (size_t place = 0; place < count; place++) {
            right &= side.draw(place);
        }
    }
    return right;
}

double seconds(const Side &side, size_t count, int repeats) {
    auto start = std::chrono::steady_clock::now();
    if (!draw_all(side, count, repeats)) {
        fail(std::string(side.name) + " comes to another answer");
    }
    std::chrono::duration<double> taken = std::chrono::steady_clock::now() - start;
    return taken.count() / repeats;
}

// The median round of each side, in microseconds a drawing.
std::vector<double> times(const std::vector<Side> &sides, size_t count) {
    std::vector<std::vector<double>> lists(sides.size());
    std::vector<int> repeats;
    for (const Side &side : sides) {
        repeats.push_back(1 + int(round_seconds / seconds(side, count, 1)));
    }
    for (int round = 0; round < rounds; round++) {
        for (size_t place = 0; place < sides.size(); place++) {
            if (round < sides[place].rounds) {
                lists[place].push_back(seconds(sides[place], count, repeats[place]) / double(count) * 1e6);
            }
        }
    }
    std::vector<double> medians;
    for (auto &list : lists) {
        std::sort(list.begin(), list.end());
        medians.push_back(list[list.size() / 2]);
    }
    return medians;
}

void print_times(const Sets &all, const std::vector<Side> &sides) {
    auto medians = times(sides, all.sets.size());
    std::printf("%-24s", all.name.c_str());
    for (double median : medians) {
        std::printf("%12.1f", median);
    }
    std::printf("%10.2f%10.2f\n", medians[0] / medians[1], medians[0] / medians[2]);
}

} // namespace

// Callgrind collects within this function, which it knows by its name.
extern "C" __attribute__((noinline)) bool counted_calls(const void *side, size_t count) {
    bool right = draw_all(*static_cast<const Side *>(side), count, 1);
    // Without it the call could be a jump, and this function would not end.
    asm volatile("");
    return right;
}

namespace {

void print_counted(const Sets &all, const std::vector<Side> &sides) {
    uint64_t moves = 0;
    for (const Set &set : all.sets) {
        moves += set.moves;
    }
    for (const Side &side : sides) {
        if (side.rounds == rounds) {
            bool right = draw_all(side, all.sets.size(), 1) && counted_calls(&side, all.sets.size());
            if (!right) {
                fail(std::string(side.name) + " comes to another answer");
            }
            std::printf("%s\t%s\t%zu\t%llu\n", all.name.c_str(), side.name, all.sets.size(), (unsigned long long)moves);
        }
    }
}

} // namespace

int main(int count, char **arguments) {
    std::string mode = count > 2 ? arguments[1] : "";
    if (mode != "times" && mode != "count") {
        fail("it takes 'times' or 'count' and files of sets");
    }
    if (mode == "times") {
        std::printf("%-24s%12s%12s%12s%12s%10s%10s\n", "microseconds a drawing", "proved", "plain C", "CGAL double",
                    "CGAL exact", "/plain C", "/double");
    }
    for (int place = 2; place < count; place++) {
        Sets all = read_sets(arguments[place]);
        auto sides = sides_of(all);
        mode == "times" ? print_times(all, sides) : print_counted(all, sides);
        std::fflush(stdout);
    }
}
