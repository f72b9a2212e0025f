// Places points by CGAL's trapezoidal map, as a user of its library would: cgal LAYER POINTS
// The layer's segments, each once, become an arrangement of exact numbers, over which the map is made in a random order; then each point is
// located. It prints the processor's seconds of the arrangement, of the map and of the points, how many points lie on a vertex, on an edge and
// in a face, the depth of the search graph and its longest path of a query.
#include <CGAL/Arr_segment_traits_2.h>
#include <CGAL/Arr_trapezoid_ric_point_location.h>
#include <CGAL/Arrangement_2.h>
#include <CGAL/Exact_predicates_exact_constructions_kernel.h>

#include <algorithm>
#include <cstdio>
#include <cstdlib>
#include <ctime>
#include <fstream>
#include <set>
#include <string>
#include <utility>
#include <vector>

using Kernel = CGAL::Exact_predicates_exact_constructions_kernel;
using Traits = CGAL::Arr_segment_traits_2<Kernel>;
using Arrangement = CGAL::Arrangement_2<Traits>;
using Location = CGAL::Arr_trapezoid_ric_point_location<Arrangement>;
using Corner = std::pair<double, double>;

std::vector<double> numbers_of(const std::string& line) {
    std::vector<double> numbers;
    const char* at = line.c_str();
    while (*at) {
        char* rest;
        double value = std::strtod(at, &rest);
        if (rest == at) {
            ++at;
        } else {
            numbers.push_back(value);
            at = rest;
        }
    }
    return numbers;
}

std::vector<Traits::X_monotone_curve_2> segments_of(const char* path) {
    std::set<std::pair<Corner, Corner>> distinct;
    std::ifstream file(path);
    for (std::string line; std::getline(file, line);) {
        std::vector<double> numbers = numbers_of(line);
        for (std::size_t i = 0; i + 3 < numbers.size(); i += 2) {
            Corner a(numbers[i], numbers[i + 1]), b(numbers[i + 2], numbers[i + 3]);
            if (a != b) distinct.insert(std::minmax(a, b));
        }
    }
    std::vector<Traits::X_monotone_curve_2> segments;
    for (const auto& [a, b] : distinct) {
        segments.emplace_back(Kernel::Point_2(a.first, a.second), Kernel::Point_2(b.first, b.second));
    }
    return segments;
}

double seconds() { return double(std::clock()) / CLOCKS_PER_SEC; }

int main(int count, char** words) {
    if (count != 3) return 2;
    std::vector<Traits::X_monotone_curve_2> segments = segments_of(words[1]);
    double begun = seconds();
    Arrangement arrangement;
    CGAL::insert_non_intersecting_curves(arrangement, segments.begin(), segments.end());
    double arranged = seconds();
    Location location(arrangement);
    double mapped = seconds();
    std::size_t found[3] = {0, 0, 0};
    std::ifstream file(words[2]);
    for (std::string line; std::getline(file, line);) {
        std::vector<double> numbers = numbers_of(line);
        if (numbers.size() == 2) ++found[location.locate(Kernel::Point_2(numbers[0], numbers[1])).which()];
    }
    double located = seconds();
    std::printf("%zu edges: arrangement %.2f s, map %.2f s, points %.2f s; %zu on vertices, %zu on edges, %zu in faces; depth %lu, longest path %lu\n",
                segments.size(), arranged - begun, mapped - arranged, located - mapped, found[0], found[1], found[2],
                (unsigned long)location.depth(), (unsigned long)location.longest_query_path_length());
}
