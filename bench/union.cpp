// Unites the polygons of each id by GEOS, as a user of its library would: union LAYER.csv
// Each line behind the header is "POLYGON TEXT",ID; for each id in the order of the first line of it, the id and the united geometry are
// written as a line.
#include <geos/geom/Geometry.h>
#include <geos/geom/GeometryFactory.h>
#include <geos/io/WKTReader.h>
#include <geos/io/WKTWriter.h>
#include <geos/operation/union/CascadedPolygonUnion.h>

#include <fstream>
#include <iostream>
#include <memory>
#include <string>
#include <unordered_map>
#include <vector>

int main(int argc, char** argv) {
    if (argc != 2) return 2;
    geos::io::WKTReader reader;
    std::ifstream file(argv[1]);
    std::string line;
    std::getline(file, line);
    std::vector<std::unique_ptr<geos::geom::Geometry>> all;
    std::vector<std::pair<std::string, std::vector<geos::geom::Polygon*>>> groups;
    std::unordered_map<std::string, std::size_t> place;
    while (std::getline(file, line)) {
        std::size_t end = line.rfind('"');
        all.push_back(reader.read(line.substr(1, end - 1)));
        std::string id = line.substr(end + 2);
        auto found = place.emplace(id, groups.size());
        if (found.second) groups.push_back({id, {}});
        groups[found.first->second].second.push_back(static_cast<geos::geom::Polygon*>(all.back().get()));
    }
    geos::io::WKTWriter writer;
    writer.setTrim(true);
    writer.setRoundingPrecision(17);
    for (auto& group : groups) {
        auto united = geos::operation::geounion::CascadedPolygonUnion::Union(&group.second);
        std::cout << group.first << '\t' << writer.write(united.get()) << '\n';
    }
}
