# shellcheck shell=bash disable=SC2034,SC2154 # examples/exports/run reads this file: it has its own variables, and uses those of this one
# What tools write when they are asked as one would ask them first, and what cures it. `habit_X` and `cure_X` write the file $1 from the
# layers in the present folder; a line of the table names X, its tool, the scale and form of the habit, the note that comes, and the
# scale and form of the cure.

habits="
no_attributes|gdal|13 csv|layer row 1: fields|13 csv
no_geometry|gdal|6 csv|layer: no wkt column|6 csv
semicolons|gdal|13 csv|layer: no wkt column|13 csv
form_forgotten|gdal|6 lines|layer line 1: tag|6 csv
all_digits|gdal|6 csv|layer row 1: number 1 off grid|6 csv
scale_too_large|gdal|15 csv|layer row 1: number 1 out of range|9 csv
heights|gdal|13 csv|layer row 1: dimension|13 csv
geometry_name|gdal|6 csv|read failed|6 csv
curves|gdal|15 csv|layer row 1: tag|15 csv
other_bytes|gdal|15 csv|layer row 61: id not UTF-8|15 csv
slivers|gdal|15 csv|layer: edges .* cross|9 csv
coarse|gdal|6 csv|layer: edges .* cross|15 csv
left_out|gdal|6 csv|layer: edges .* cross|6 csv
snapped|gdal|6 csv|layer: edges .* cross|6 csv
no_id|gdal|6 csv|layer row 1: fields|6 csv
bare_name|gdal|6 csv|read failed|6 csv
open_ring|gdal|0 csv|layer row 1: ring 1 open|0 csv
unnamed|postgis|6 csv|layer: no wkt column|6 csv
srid|postgis|6 csv|layer row 1: tag|6 csv
binary|postgis|6 csv|layer row 1: syntax|6 csv
snapped_only|postgis|6 csv|layer row 1: number 1 off grid|6 csv
digits_only|postgis|6 csv|layer row 1: number 3 off grid|6 csv
corner_beyond|postgis|6 csv|layer: edges .* cross|6 csv
bow|postgis|6 csv|layer: edges .* cross|6 csv
to_csv|geopandas|6 csv|layer: no wkt column|6 csv
small_numbers|geopandas|15 csv|layer row 1: number 1 off grid|9 csv
seven_digits|sf|2 csv|layer: edges .* cross|3 csv
quoted_lines|sf|6 lines|layer line 1: syntax|6 csv
"

# GDAL

as_wkt() {
    local out=$1
    shift
    ogr2ogr -f CSV "$out" -lco GEOMETRY=AS_WKT "$@"
}

habit_no_attributes() {
    ogr2ogr -f GPKG bare.gpkg nc.shp -nln bare -dialect sqlite -sql "select geometry from nc"
    as_wkt "$1" bare.gpkg
}
cure_no_attributes() { as_wkt "$1" bare.gpkg -sql "select FID as id, * from bare"; }

habit_no_geometry() { ogr2ogr -f CSV "$1" nc.shp; }
cure_no_geometry() { "$recipes/gdal" nc.shp NAME 6 "$1"; }

habit_semicolons() { as_wkt "$1" nc.shp -lco SEPARATOR=SEMICOLON; }
cure_semicolons() { as_wkt "$1" nc.shp; }

habit_form_forgotten() { "$recipes/gdal" nc.shp NAME 6 "$1"; }
cure_form_forgotten() { "$recipes/gdal" nc.shp NAME 6 "$1"; }

habit_all_digits() { as_wkt "$1" nc.shp; }
cure_all_digits() { "$recipes/gdal" nc.shp NAME 6 "$1"; }

habit_scale_too_large() { as_wkt "$1" nybb.shp; }
cure_scale_too_large() { as_wkt "$1" nybb.shp; }

habit_heights() { as_wkt "$1" nc.shp -dim XYZ; }
cure_heights() { as_wkt "$1" nc.shp -dim XY; }

from_geopackage() {
    local column=$2
    as_wkt "$1" counties.gpkg -dialect sqlite -sql "select SnapToGrid($column, 1e-6) as geometry, NAME as id from \"nc.gpkg\""
}
habit_geometry_name() { from_geopackage "$1" geometry; }
cure_geometry_name() { from_geopackage "$1" geom; }

of_curves() { as_wkt "$1" "$here/curve.csv" -oo GEOM_POSSIBLE_NAMES=wkt -oo KEEP_GEOM_COLUMNS=NO "${@:2}"; }
habit_curves() { of_curves "$1"; }
cure_curves() { of_curves "$1" -nlt CONVERT_TO_LINEAR; }

habit_other_bytes() {
    "$recipes/gdal_as_written" naturalearth_lowres.shp name 15 countries.csv
    iconv -f utf-8 -t latin1 countries.csv >"$1"
}
cure_other_bytes() { iconv -f latin1 -t utf-8 other_bytes.habit.csv >"$1"; }

habit_slivers() { "$recipes/gdal_as_written" olinda1.shp CD_GEOCODI 15 "$1"; }
cure_slivers() { "$recipes/gdal" olinda1.shp CD_GEOCODI 9 "$1"; }

habit_coarse() { "$recipes/gdal" naturalearth_lowres.shp name 6 "$1"; }
cure_coarse() { "$recipes/gdal_as_written" naturalearth_lowres.shp name 15 "$1"; }

habit_left_out() { "$recipes/gdal" naturalearth_lowres.shp name 6 "$1"; }
cure_left_out() { "$top/tools/faults" left_out.habit.csv --form csv --scale 6 --drop "$1"; }

habit_snapped() { "$recipes/gdal" naturalearth_lowres.shp name 6 "$1"; }
cure_snapped() { "$top/tools/mend" snapped.habit.csv "$1" --form csv --scale 6 --within 0.000002; }

# GDAL takes a column of rowids for the number of the feature, and leaves it out of the CSV.
habit_no_id() { as_wkt "$1" counties.gpkg -dim XY -dialect sqlite -sql 'select SnapToGrid(geom, 1e-6) as geometry, rowid as id from "nc.gpkg"'; }
cure_no_id() { "$recipes/gdal_rowid" counties.gpkg 6 "$1"; }

# The name of a layer that is no plain word stands in quotes.
habit_bare_name() { as_wkt "$1" counties.gpkg -dim XY -dialect sqlite -sql 'select SnapToGrid(geom, 1e-6) as geometry, NAME as id from nc.gpkg'; }
cure_bare_name() { as_wkt "$1" counties.gpkg -dim XY -dialect sqlite -sql 'select SnapToGrid(geom, 1e-6) as geometry, NAME as id from "nc.gpkg"'; }

habit_open_ring() { cp "$here/open.csv" "$1"; }
cure_open_ring() { "$top/tools/import" "$here/open.csv" "$1" --scale 0 --close; }

# PostGIS, where the table nc is that of the recipe

copied() { psql -q -v ON_ERROR_STOP=1 -c "\copy ($1) to '$2' csv header"; }

habit_unnamed() { copied "select name as id, ST_AsText(ST_SnapToGrid(geom, 1e-6), 6) from nc" "$1"; }
cure_unnamed() { copied "select name as id, ST_AsText(ST_SnapToGrid(geom, 1e-6), 6) as wkt from nc" "$1"; }

habit_srid() { copied "select name as id, ST_AsEWKT(ST_SetSRID(geom, 4267), 6) as wkt from nc" "$1"; }
cure_srid() { cure_unnamed "$1"; }

habit_binary() { copied "select name as id, geom as wkt from nc" "$1"; }
cure_binary() { cure_unnamed "$1"; }

habit_snapped_only() { copied "select name as id, ST_AsText(ST_SnapToGrid(geom, 1e-6)) as wkt from nc" "$1"; }
cure_snapped_only() { cure_unnamed "$1"; }

near_the_axis="'POLYGON ((0 0, 0.00000001 4, 4 0, 0 0))'::geometry"
habit_digits_only() { copied "select ST_AsText($near_the_axis, 6) as wkt" "$1"; }
cure_digits_only() { copied "select ST_AsText(ST_SnapToGrid($near_the_axis, 1e-6), 6) as wkt" "$1"; }

habit_corner_beyond() {
    psql -q -c "create table lots (id int, geom geometry);
        insert into lots values (1, 'POLYGON ((0 0, 8 0, 9.000001 5, 8 9, 0 9, 0 0))'), (2, 'POLYGON ((9 0, 18 0, 18 9, 9 9, 9 0))')"
    copied "select id, ST_AsText(geom, 6) as wkt from lots" "$1"
}
cure_corner_beyond() {
    local others="select ST_Collect(other.geom) from lots other where other.id <> lots.id"
    copied "select id, ST_AsText(ST_SnapToGrid(ST_Snap(geom, ($others), 2e-6), 1e-6), 6) as wkt from lots" "$1"
}

bow="'POLYGON ((0 0, 4 4, 4 0, 0 4, 0 0))'::geometry"
habit_bow() { copied "select ST_AsText($bow, 6) as wkt" "$1"; }
cure_bow() { copied "select ST_AsText(ST_SnapToGrid(ST_MakeValid($bow), 1e-6), 6) as wkt" "$1"; }

# geopandas and shapely

habit_to_csv() { /usr/bin/python3 -c "import geopandas; geopandas.read_file('nc.shp').to_csv('$1', index=False)"; }
cure_to_csv() { "$recipes/geopandas" nc.shp NAME 6 "$1"; }

written_triangle() {
    /usr/bin/python3 - "$2" <<END
import csv, sys
from shapely import wkt
from shapely.geometry import Polygon
shape = Polygon([(1 / 81, 0), (1 / 3, 0), (2 / 3, 1)])
csv.writer(open(sys.argv[1], "w")).writerows([["wkt"], [$1]])
END
}
habit_small_numbers() { written_triangle "shape.wkt" "$1"; }
cure_small_numbers() { written_triangle "wkt.dumps(shape, rounding_precision=9, trim=True)" "$1"; }

# R

habit_seven_digits() {
    Rscript -e "library(sf); t <- st_read('nybb.shp', quiet = TRUE)" \
        -e "write.csv(data.frame(id = t\$BoroName, wkt = st_as_text(st_geometry(t))), '$1', row.names = FALSE)"
}
cure_seven_digits() { "$recipes/sf" nybb.shp BoroName 3 "$1"; }

habit_quoted_lines() { "$recipes/sf" nc.shp NAME 6 "$1"; }
cure_quoted_lines() { "$recipes/sf" nc.shp NAME 6 "$1"; }
