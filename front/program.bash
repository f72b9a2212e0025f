# shellcheck shell=bash disable=SC2154,SC2034
# Which program ./locate runs, and how it is built. It is read by scripts that set `top`, the top of the repository.

built=$top/crates/locate/out/locate
handed_out=$top/dist/locate
sum_of_handed_out=$top/dist/locate.sum
# newer than all sources if the program of dist/ was made from them
stamp=$top/crates/locate/out/handed_out.stamp
# the oldest C library that the program of dist/ runs on
oldest_library=2.34

fail() {
    echo "locate: $1" >&2
    exit 1
}

# The crates that the program stands on, and its own, the lowest first, a line each.
crates_of_program() {
    awk '
        function visit(name,    i, count, needed) {
            if (!(name in needs) || name in seen) return
            seen[name] = 1
            count = split(needs[name], needed, " ")
            for (i = 1; i <= count; i++) visit(needed[i])
            print name
        }
        { sub(/#.*/, "") }
        /:/ { name = $1; sub(/:.*/, "", name); rest = $0; sub(/^[^:]*:/, "", rest); needs[name] = rest }
        END { visit("locate") }
    ' "$top/crates.txt"
}

# The files that the program is made from, a line each.
sources() {
    local -a folders
    mapfile -t folders < <(crates_of_program | sed 's|.*|crates/&/src|')
    (cd "$top" && echo crates.txt && find "${folders[@]}" -type f) | LC_ALL=C sort
}

# The sum over the names and the bytes of the sources.
sum_of_sources() {
    local -a files
    mapfile -t files < <(sources)
    (cd "$top" && sha256sum -- "${files[@]}") | sha256sum | cut -d ' ' -f 1
}

# The kit's line: that of this machine, or the recorded one if there is no kit here.
kit() {
    if command -v rt >/dev/null; then
        rt version
    else
        recorded kit
    fi
}

# What dist/locate.sum says of $1: sources, kit or program.
recorded() { sed -n "s/^$1 //p" "$sum_of_handed_out" 2>/dev/null; }

sum_of_file() { sha256sum -- "$1" | cut -d ' ' -f 1; }

# The folders of the crates that are named $1.., a line each: src, specs or proofs.
folders_of_crates() {
    local name
    for name; do
        find "$top/crates" -mindepth 2 -maxdepth 2 -name "$name"
    done
}

# Nothing under the folders that are read from standard input, and not crates.txt, is newer than the file $1.
is_newer_than() {
    local -a folders
    mapfile -t folders
    [[ -f $1 && -z $(find "${folders[@]}" "$top/crates.txt" -newer "$1" -print -quit) ]]
}

# An earlier call or a gate built the program from the sources as they are.
is_built() { [[ -x $built ]] && folders_of_crates src specs proofs | is_newer_than "$built"; }

# The program of dist/ was made from the sources as they are. Which kit is on this machine says nothing of that.
is_of_these_sources() { [[ -x $handed_out && $(recorded sources) == "$(sum_of_sources)" ]]; }

# A line on the two kits, if another one made the program of dist/ than is on this machine.
other_kit() {
    [[ $(recorded kit) == "$(kit)" ]] || echo "the kit $(recorded kit) made the program of dist/; the kit here is $(kit)"
}

# The same, from a stamp if an earlier call left one.
is_handed_out() {
    [[ -f $stamp ]] && { folders_of_crates src && echo "$top/dist"; } | is_newer_than "$stamp" && return
    is_of_these_sources || return
    mkdir -p "${stamp%/*}" 2>/dev/null && touch "$stamp" 2>/dev/null
    return 0
}

# Why the program of dist/ does not run on this machine, if it does not.
why_not_here() {
    local library
    library=$(getconf GNU_LIBC_VERSION 2>/dev/null)
    library=${library#glibc }
    if [[ $(uname -s)/$(uname -m) != Linux/x86_64 ]]; then
        echo "this machine is $(uname -s) on $(uname -m), and the program that is handed out is for Linux on x86_64"
    elif [[ -z $library ]]; then
        echo "the C library here is not glibc, which the program that is handed out needs"
    elif [[ $(printf '%s\n' "$oldest_library" "$library" | sort -V | head -n 1) != "$oldest_library" ]]; then
        echo "the C library here is glibc $library, and the program that is handed out needs $oldest_library"
    fi
}

# How many processors a check may use: each takes up to three gigabytes.
jobs() {
    local cores memory
    cores=$(nproc)
    memory=$(awk '/^MemAvailable/ { print int($2 / 3145728) }' /proc/meminfo)
    ((memory >= 1)) || memory=1
    echo $((cores < memory ? cores : memory))
}

# Calls rt in the folder of the crate $1. What it prints is shown if it fails.
in_crate() {
    local crate=$1
    shift
    (cd "$top/crates/$crate" && rt "$@") >"$log" 2>&1 </dev/null && return
    tail -n 20 "$log" >&2
    fail "the build failed"
}

# Proves and builds each library, and then the program. rt lets one run at a time work in a library, so they come one after another.
build() {
    local crate number=0
    local -a crates
    command -v rt >/dev/null || fail "the command rt, which builds the program, is not on the path"
    echo "locate: building the program; the first build proves everything, and takes half an hour or more" >&2
    log=$(mktemp)
    trap 'rm -f "$log" "$log.begun"' EXIT
    touch "$log.begun"
    mapfile -t crates < <(crates_of_program)
    for crate in "${crates[@]}"; do
        number=$((number + 1))
        if [[ $crate == locate ]]; then
            in_crate locate run -- query data/layer.wkt data/points.txt --scale 0
        else
            in_crate "$crate" lib --jobs "$(jobs)"
        fi
        echo "locate: $crate proved, $number of ${#crates[@]}" >&2
    done
    # a source that was changed during the build is newer than the program, which is then built again
    touch -r "$log.begun" "$built"
    rm -f "$log" "$log.begun"
    trap - EXIT
    echo "locate: built" >&2
}

# Proves and builds here, and says whether the program is that of dist/.
prove() {
    is_built || build
    if [[ ! -f $handed_out ]]; then
        echo "proved and built here; dist/ holds no program to compare it with"
        return
    fi
    other_kit
    if cmp -s "$built" "$handed_out"; then
        echo "proved and built here; it is the program of dist/, byte for byte"
    else
        echo "proved and built here; it is not the program of dist/"
        return 1
    fi
}

# One line on the program that runs: its sources and its kit. The sum of the sources is taken only where it is asked for.
version_of_program() {
    if [[ $program == "$handed_out" ]]; then
        echo "locate of the sources $(recorded sources | cut -c 1-12), $(recorded kit)"
    else
        echo "locate of the sources $(sum_of_sources | cut -c 1-12), $(kit), built here"
    fi
}

# Sets `program`: the one that is built here, else the one of dist/, else a new build.
choose_program() {
    local why
    program=$built
    is_built && return
    if is_handed_out; then
        why=$(why_not_here)
        if [[ -z $why ]]; then
            program=$handed_out
            return
        fi
        echo "locate: $why" >&2
    fi
    build
}
