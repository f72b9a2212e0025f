// Answers points by GEOS, as a user of its library would: peer LAYER POINTS simple|prepared
// A line for each point, as the program writes them but for the numbers of corners and borders: the polygons on whose border it lies, and
// those in which it lies, by their line numbers, in the order in which the tree of boxes finds them.
// `simple` looks at a polygon's points for each point that is asked; `prepared` builds an index of each polygon that is asked.
#include <geos/algorithm/locate/SimplePointInAreaLocator.h>
#include <geos/geom/Coordinate.h>
#include <geos/geom/Envelope.h>
#include <geos/geom/Geometry.h>
#include <geos/geom/GeometryFactory.h>
#include <geos/geom/Location.h>
#include <geos/geom/Point.h>
#include <geos/geom/prep/PreparedGeometry.h>
#include <geos/geom/prep/PreparedGeometryFactory.h>
#include <geos/index/strtree/TemplateSTRtree.h>
#include <geos/io/WKTReader.h>

#include <cstdlib>
#include <fstream>
#include <iostream>
#include <memory>
#include <string>
#include <vector>

using geos::algorithm::locate::SimplePointInAreaLocator;
using geos::geom::Coordinate;
using geos::geom::Envelope;
using geos::geom::Geometry;
using geos::geom::GeometryFactory;
using geos::geom::Location;
using geos::geom::prep::PreparedGeometry;
using geos::geom::prep::PreparedGeometryFactory;
using geos::index::strtree::TemplateSTRtree;

struct Layer {
    std::vector<std::unique_ptr<Geometry>> polygons;
    std::vector<std::unique_ptr<PreparedGeometry>> prepared;
    TemplateSTRtree<std::size_t> tree;
};

void read_layer(Layer& layer, const char* path, bool is_prepared) {
    geos::io::WKTReader reader;
    std::ifstream file(path);
    for (std::string line; std::getline(file, line);) {
        auto polygon = reader.read(line);
        layer.tree.insert(*polygon->getEnvelopeInternal(), layer.polygons.size());
        if (is_prepared) layer.prepared.push_back(PreparedGeometryFactory::prepare(polygon.get()));
        layer.polygons.push_back(std::move(polygon));
    }
}

Location location_in(const Layer& layer, std::size_t number, const Coordinate& at, const Geometry* point) {
    if (!point) return SimplePointInAreaLocator::locate(at, layer.polygons[number].get());
    if (!layer.prepared[number]->covers(point)) return Location::EXTERIOR;
    return layer.prepared[number]->contains(point) ? Location::INTERIOR : Location::BOUNDARY;
}

void answer(Layer& layer, const Coordinate& at, const Geometry* point, std::string& out) {
    std::string on, in;
    layer.tree.query(Envelope(at), [&](std::size_t number) {
        Location location = location_in(layer, number, at, point);
        if (location == Location::EXTERIOR) return;
        std::string& ids = location == Location::BOUNDARY ? on : in;
        ids += " \"";
        ids += std::to_string(number + 1);
        ids += '"';
    });
    out += on.empty() ? "face" : "on" + on;
    out += " in" + in + '\n';
}

void answer_points(Layer& layer, const char* path, bool is_prepared) {
    auto factory = GeometryFactory::create();
    std::ifstream file(path);
    std::string out;
    for (std::string line; std::getline(file, line);) {
        char* rest;
        double x = std::strtod(line.c_str(), &rest);
        Coordinate at(x, std::strtod(rest, nullptr));
        std::unique_ptr<Geometry> point(is_prepared ? factory->createPoint(at) : nullptr);
        answer(layer, at, point.get(), out);
        if (out.size() > 65536) {
            std::cout << out;
            out.clear();
        }
    }
    std::cout << out;
}

int main(int count, char** words) {
    std::ios::sync_with_stdio(false);
    if (count != 4) return 2;
    bool is_prepared = words[3] == std::string("prepared");
    Layer layer;
    read_layer(layer, words[1], is_prepared);
    answer_points(layer, words[2], is_prepared);
}
