// Asks GEOS of each feature whether it is valid, as a user of its library would: validity LAYER
// Each line of the layer is a geometry; for each the words valid, or what GEOS says of it and where.
#include <geos/geom/Geometry.h>
#include <geos/io/WKTReader.h>
#include <geos/operation/valid/IsValidOp.h>
#include <geos/operation/valid/TopologyValidationError.h>

#include <fstream>
#include <iostream>
#include <string>

int main(int argc, char** argv) {
    if (argc != 2) return 2;
    geos::io::WKTReader reader;
    std::ifstream file(argv[1]);
    std::string line;
    while (std::getline(file, line)) {
        auto geometry = reader.read(line);
        geos::operation::valid::IsValidOp judge(geometry.get());
        if (judge.isValid()) {
            std::cout << "valid\n";
        } else {
            std::cout << judge.getValidationError()->toString() << '\n';
        }
    }
}
