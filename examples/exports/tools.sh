# shellcheck shell=bash disable=SC2034 # examples/exports/run reads this file, and uses its variables
# The tools that the recipes need: where they are missing they are installed from Debian's packages, and a tool that cannot be had is told.

layers_of_sf=/usr/lib/R/site-library/sf/shape
layers_of_geopandas=/usr/lib/python3/dist-packages/geopandas/datasets

declare -A packages=(
    [gdal]="gdal-bin" [postgis]="postgresql-postgis postgis" [spatialite]="spatialite-bin"
    [geopandas]="python3-geopandas python3-shapely" [sf]="r-cran-sf"
)

has() {
    case $1 in
        gdal) command -v ogr2ogr ;;
        postgis) command -v shp2pgsql && ls /usr/lib/postgresql/*/bin/initdb /usr/share/postgresql/*/extension/postgis.control ;;
        spatialite) command -v spatialite ;;
        geopandas) /usr/bin/python3 -c "import geopandas, shapely" ;;
        sf) Rscript -e "library(sf)" ;;
    esac >/dev/null 2>&1
}

version_of() {
    case $1 in
        gdal) ogr2ogr --version | cut -d, -f1 ;;
        postgis) psql -qAtc "select 'PostGIS ' || extversion || ', ' || split_part(version(), ' (', 1) from pg_extension where extname = 'postgis'" ;;
        spatialite) echo "SpatiaLite $(echo "select spatialite_version();" | spatialite -silent :memory: 2>/dev/null | tail -n 1)" ;;
        geopandas) /usr/bin/python3 -c "import geopandas, shapely; print(f'geopandas {geopandas.__version__}, shapely {shapely.__version__}')" ;;
        sf) Rscript -e "cat('sf ', format(packageVersion('sf')), ', R ', format(getRversion()), '\\n', sep = '')" 2>/dev/null ;;
    esac
}

# Installs what the tool $1 needs, if it may.
install_packages_of() {
    [ "$(id -u)" = 0 ] && command -v apt-get >/dev/null || return 1
    if [ -z "${updated:-}" ]; then
        apt-get update >/dev/null 2>&1
        updated=yes
    fi
    # shellcheck disable=SC2086 # a list of packages
    DEBIAN_FRONTEND=noninteractive apt-get install -y --no-install-recommends ${packages[$1]} >/dev/null 2>&1
}

# Tells which tools are missing and from which packages they come, and then installs them.
provide() {
    local tool missing=()
    for tool in "$@"; do
        has "$tool" || missing+=("$tool")
    done
    [ "${#missing[@]}" -eq 0 ] && return
    echo "missing, and installed from Debian's packages where that can be done:"
    for tool in "${missing[@]}"; do
        echo "  $tool: ${packages[$tool]}"
    done
    for tool in "${missing[@]}"; do
        install_packages_of "$tool" || echo "  $tool cannot be installed here"
    done
}

# The words before a command of PostgreSQL: it does not run as root, which lends it the account that its package makes.
as_server() {
    if [ "$(id -u)" = 0 ]; then
        setpriv --reuid=postgres --regid=postgres --clear-groups "$@"
    else
        "$@"
    fi
}

# A server of its own in the folder $1, which takes no connections but by a socket there.
start_server() {
    local place=$1
    local found=(/usr/lib/postgresql/*/bin/initdb)
    server=$(dirname "${found[-1]}")
    mkdir -p "$place" && chmod 755 "$(dirname "$place")"
    [ "$(id -u)" != 0 ] || chown postgres "$place"
    (cd "$place" && as_server "$server/initdb" -D "$place/data" -A trust -U postgres -E UTF8 --locale=C &&
        as_server "$server/pg_ctl" -D "$place/data" -w -l "$place/log" -o "-k $place -c listen_addresses=''" start) >"$place.log" 2>&1 || return 1
    export PGHOST=$place PGUSER=postgres PGDATABASE=postgres
    psql -qc "create extension postgis" >>"$place.log" 2>&1
}

stop_server() {
    [ -n "${server:-}" ] && (cd / && as_server "$server/pg_ctl" -D "$PGHOST/data" -m fast stop) >/dev/null 2>&1
}
