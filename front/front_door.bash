# shellcheck shell=bash disable=SC2154,SC2086,SC2013
# The front door of the program: help, `-` for standard input, the word that is the trouble, the file that could not be read, and how far a
# long run is. It changes no answer and no status. It is read by a script that sets
#   program   the path of the program
#   name      what its user calls it
#   version   one line for --version
# and then calls `front_door "$@"`.

declare -A places=(
    [query]="LAYER POINTS" [features]="LAYER POINTS" [check]="LAYER" [build]="LAYER INDEX" [ask]="INDEX POINTS" [verify]="INDEX" [face]="LAYER POINT" [gen]="KIND N SHIFT"
    [trial]="KIND N SHIFT" [upgrade]="OLD NEW" [edges]="INDEX" [stab]="LAYER SPANS" [valid]="LAYER" [dissolve]="LAYER"
)
declare -A options=(
    [query]="--scale --form --index --order --shuffle --faces" [features]="--scale --form" [check]="--scale --form" [build]="--scale --form" [ask]="" [verify]=""
    [face]="--scale --form" [gen]="" [trial]="--index" [upgrade]="" [edges]="" [stab]="--scale --form" [valid]="--scale --form" [dissolve]="--scale --form"
)
declare -A usages=(
    [query]="query LAYER POINTS --scale K [--form lines|csv] [--index scan|tree|trap] [--order FILE | --shuffle N] [--faces]"
    [features]="features LAYER POINTS --scale K [--form lines|csv]"
    [check]="check LAYER --scale K [--form lines|csv]"
    [build]="build LAYER INDEX --scale K [--form lines|csv]"
    [ask]="ask INDEX POINTS"
    [verify]="verify INDEX"
    [face]="face LAYER POINT --scale K [--form lines|csv]"
    [gen]="gen KIND N SHIFT"
    [trial]="trial KIND N SHIFT [--index scan|tree|trap]"
    [upgrade]="upgrade OLD NEW"
    [edges]="edges INDEX"
    [stab]="stab LAYER SPANS --scale K [--form lines|csv]"
    [valid]="valid LAYER --scale K [--form lines|csv]"
    [dissolve]="dissolve LAYER --scale K [--form lines|csv]"
)
declare -A summaries=(
    [query]="answer each point of a list from a layer of polygons"
    [features]="name the polygons that touch and that cover each point of a list, in any layer that reads"
    [check]="say whether a layer is accepted, and count its features, corners and edges"
    [build]="make the index file of a layer, to be asked ever after"
    [ask]="answer each point of a list from an index file"
    [verify]="say whether an index file is a true index, or name its first flaw"
    [face]="print the boundaries of the open face in which a point lies"
    [gen]="write a test layer: a grid, a nest of squares or long strips"
    [trial]="make a test layer, ask it for points of its own, and count the answers"
    [upgrade]="write an index file of either version anew as one of the second"
    [edges]="list the edges of an index file, each with the side that the file names as its source"
    [stab]="name the edges that each vertical span of a list meets, in a defined order"
    [valid]="say of each feature of a layer whether it keeps the rules of the standard, and which it breaks first"
    [dissolve]="write the polygons that features of one id cover together, without their inner borders"
)
commands="query features check build ask verify face gen trial upgrade edges stab valid dissolve"

about_layer="LAYER is a file of polygons: a POLYGON or MULTIPOLYGON text on each line, or with --form csv
a CSV with a column 'wkt' and, if the polygons have names, a column 'id'. In a file of lines the
id of a polygon is the number of its line. '-' means standard input.
--scale K says how many decimals a coordinate may have, 0 to 15. Nothing is rounded: a layer
with more decimals, zeros at the end aside, is refused."
about_points_file="POINTS is a file with one point on each line, as '2.5 1' or 'POINT (2.5 1)'. '-' means standard input."
about_points="$about_points_file
Each line of POINTS gets one line of answer:
    corner N on IDS in IDS    the point is corner N of the layer
    border N on IDS in IDS    it lies on edge N
    face in IDS               it lies in the open; a bare 'face in' means in no polygon
    unread                    the line holds no point, or one that is off the grid of the scale or too large
'on' names the polygons that touch the point, 'in' those that cover it."
about_features="$about_points_file
Each line of POINTS gets one line of answer:
    on IDS in IDS             the point lies on the border of polygons
    in IDS                    it lies on no border; a bare 'in' means in no polygon
    unread                    the line holds no point, or one that is off the grid of the scale or too large
'on' names the polygons that touch the point, 'in' those that cover it."
about_spans="SPANS is a file with one vertical span on each line, as '2.5 -1 5': x, the lower y and the upper y. '-' means
standard input. Each line of SPANS gets one line of answer:
    edges E F ..              the numbers of the edges that the span meets; a bare 'edges' means none
    unread                    the line holds no span, or a number that is off the grid of the scale or too large
First come the edges that end at the lower point, then those that the span crosses or touches from there
up, and last those that begin above it in its column; the first and the last go by their numbers."
about_statuses="Status: 0 done, 1 a text or a layer is refused, 2 the words are no command, 3 a file could not be
read, 4 an output could not be written, 5 there was not enough memory."

help_of() {
    echo "usage: $name ${usages[$1]}"
    echo
    echo "${summaries[$1]^}."
    echo
    case $1 in
        query)
            printf '%s\n\n%s\n\n' "$about_layer" "$about_points"
            echo "--index says how points are found; the answers are the same. tree is the default and the fastest,
scan looks at one edge after another, trap goes down a map of trapezoids. --order FILE or
--shuffle N says in which order that map is made. --faces names an open face by its number."
            ;;
        features)
            printf '%s\n\n%s\n\n' "$about_layer" "$about_features"
            echo "No layer that reads is refused: polygons may overlap and cross each other or themselves. In a layer that
'$name check' accepts the polygons are those that '$name query' names, which also names corners and borders."
            ;;
        check) printf '%s\n\n%s\n' "$about_layer" "It prints: features F corners V edges E" ;;
        build) printf '%s\n\n%s\n' "$about_layer" "INDEX is the file to be made. Ask it by: $name ask INDEX POINTS" ;;
        ask) printf '%s\n\n%s\n' "INDEX is a file that '$name build' made, this program or an earlier one. It has its own scale." "$about_points" ;;
        upgrade)
            echo "OLD is an index file that '$name build' made, this program or an earlier one. NEW is the file to be made.
Both answer the same. A file of the second version is made as it was."
            ;;
        edges) echo "It prints for each edge: edge N X Y, X Y of X Y, X Y. Behind 'of' stands the side that it was cut from; in a
file of the first version, and in its upgrade, the edge itself." ;;
        verify) echo "It prints: index of F features, V corners, E edges, N nodes" ;;
        face)
            printf '%s\n\n' "$about_layer"
            echo "POINT is one word, as '0.5 0.5' or 'POINT (0.5 0.5)'. It prints the number of the face, the corners of
its outer boundary, and those of each hole. Face 0 has no outer boundary."
            ;;
        stab) printf '%s\n\n%s\n' "$about_layer" "$about_spans" ;;
        valid)
            printf '%s\n\n' "$about_layer"
            echo "It prints for each feature its id and 'valid', or the first rule of OGC 06-103r4 that it breaks. Features are
not compared with each other, and the layer need not be one that is accepted."
            ;;
        dissolve)
            printf '%s\n\n' "$about_layer"
            echo "It writes a layer in form csv: the header wkt,id, and for each id a row with the polygons that its
features cover together. The rows stand in the order in which the ids come first."
            ;;
        gen | trial)
            echo "KIND is grid (N by N unit squares, N at most 256), nest (N squares one in another, N at most 4096) or
strips (N long strips, N at most 131072). SHIFT moves the layer."
            ;;
    esac
    echo
    echo "$about_statuses"
}

help_all() {
    local command
    echo "$name says for each point of a list where it lies in a layer of polygons: on which corner, on which
border or in the open, and which polygons touch and cover it. Nothing is rounded."
    echo
    echo "usage: $name COMMAND ..."
    echo
    for command in $commands; do
        printf '    %-10s%s\n' "$command" "${summaries[$command]}"
    done
    echo
    echo "    $name help COMMAND        more about a command, as does $name COMMAND --help
    $name --version           which program this is"
    echo
    echo "Example: $name query parcels.wkt points.txt --scale 2"
    echo
    echo "$about_statuses"
}

is_command() { [[ -n ${usages[$1]:-} ]]; }

is_number() { [[ $1 =~ ^[0-9]{1,20}$ ]]; }

is_one_of() {
    local word=$1 other
    shift
    for other; do
        [[ $word == "$other" ]] && return 0
    done
    return 1
}

# Help and version, on standard output. Status 0 if that is what the words ask for.
answers_help() {
    local word
    case ${1-} in
        --help | -h) help_all ;;
        --version) echo "$version" ;;
        help)
            if [[ $# -eq 1 ]]; then
                help_all
            elif [[ $# -eq 2 ]] && is_command "$2"; then
                help_of "$2"
            else
                return 1
            fi
            ;;
        *)
            is_command "${1-}" || return 1
            for word in "${@:2}"; do
                if [[ $word == --help || $word == -h ]]; then
                    help_of "$1"
                    return 0
                fi
            done
            return 1
            ;;
    esac
    return 0
}

# What is wrong with the value $2 of the option $1, if anything.
trouble_with_value() {
    case $1 in
        --scale) is_number "$2" && ((10#$2 <= 15)) || echo "--scale takes a whole number from 0 to 15, and not '$2'" ;;
        --form) is_one_of "$2" lines csv || echo "--form takes lines or csv, and not '$2'" ;;
        --index) is_one_of "$2" scan tree trap || echo "--index takes scan, tree or trap, and not '$2'" ;;
        --shuffle) is_number "$2" || echo "--shuffle takes a whole number, and not '$2'" ;;
    esac
}

# What is wrong with the word $2 in the place $1 of the command $3, if anything.
trouble_with_place() {
    if [[ -z $2 ]]; then
        echo "$1 is an empty word"
    elif [[ $2 == -* && $1 == POINT ]]; then
        echo "a point that begins with '-' is written as 'POINT ($2)'"
    elif [[ $2 == -* ]]; then
        echo "'$2' stands in the place of $1: options come behind ${places[$3]}"
    elif [[ $1 == KIND ]]; then
        is_one_of "$2" grid nest strips || echo "KIND is grid, nest or strips, and not '$2'"
    elif [[ $1 == N || $1 == SHIFT ]]; then
        is_number "$2" || echo "$1 is a whole number, and not '$2'"
    fi
}

# The first trouble with the words behind the places of the command $1, if any.
trouble_in_options() {
    local command=$1 word option value said=" " index=tree trouble
    shift
    while [[ $# -gt 0 ]]; do
        word=$1 option=${1%%=*}
        shift
        if [[ $word != -* ]]; then
            echo "'$word' is one word too many behind ${places[$command]}"
            return
        elif ! is_one_of "$option" ${options[$command]}; then
            echo "$command has no option '$option'"
            return
        elif [[ $said == *" $option "* ]]; then
            echo "$option is there twice"
            return
        fi
        said+="$option "
        if [[ $option == --faces ]]; then
            [[ $word == --faces ]] || { echo "--faces takes no value" && return; }
            continue
        elif [[ $word == *=* ]]; then
            value=${word#*=}
        elif [[ $# -gt 0 && $1 != -* ]]; then
            value=$1
            shift
        else
            value=
        fi
        [[ -n $value ]] || { echo "$option lacks its value" && return; }
        trouble=$(trouble_with_value "$option" "$value")
        [[ -z $trouble ]] || { echo "$trouble" && return; }
        [[ $option != --index ]] || index=$value
    done
    if [[ " ${options[$command]} " == *" --scale "* && $said != *" --scale "* ]]; then
        echo "--scale K is missing: how many decimals may a coordinate have?"
    elif [[ $said == *" --order "* && $said == *" --shuffle "* ]]; then
        echo "--order and --shuffle exclude each other"
    elif [[ $said == *" --order "* || $said == *" --shuffle "* ]] && [[ $index != trap ]]; then
        echo "--order and --shuffle are for --index trap alone"
    fi
}

# The first trouble with the words, if it is known.
trouble_in_words() {
    local command=${1-} place trouble
    if [[ $# -eq 0 ]]; then
        echo "which command? One of: $commands"
    elif ! is_command "$command"; then
        echo "there is no command '$command': it is one of: $commands"
    else
        shift
        for place in ${places[$command]}; do
            if [[ $# -eq 0 ]]; then
                echo "$place is missing"
                return
            fi
            trouble=$(trouble_with_place "$place" "$1" "$command")
            [[ -z $trouble ]] || { echo "$trouble" && return; }
            shift
        done
        trouble_in_options "$command" "$@"
    fi
}

# Behind refused words: the usage of their command and the word that is the trouble. $1 is what the program said.
explain_words() {
    local said=$1 trouble
    shift
    trouble=$(trouble_in_words "$@")
    if [[ -z $trouble ]]; then
        printf '%s\n' "$said"
    elif is_command "${1-}"; then
        printf 'usage: %s %s\n%s: %s\n' "$name" "${usages[$1]}" "$name" "$trouble"
    else
        printf '%s: %s\nmore by: %s --help\n' "$name" "$trouble" "$name"
    fi
}

# Why the file $1 cannot be read, if that can be seen.
why_unreadable() {
    if [[ -d $1 ]]; then
        echo "it is a directory"
    elif [[ ! -e $1 && ! -L $1 ]]; then
        echo "there is no such file"
    elif [[ ! -r $1 ]]; then
        echo "there is no leave to read it"
    fi
}

# The files that a run with these words reads, in its order, a line each.
files_read() {
    local command=$1 order=
    shift
    local -a words=("$@")
    local at
    for ((at = 0; at < ${#words[@]}; at++)); do
        case ${words[at]} in
            --order) order=${words[at + 1]-} ;;
            --order=*) order=${words[at]#*=} ;;
        esac
    done
    case $command in
        query) printf '%s\n' "$1" ${order:+"$order"} "$2" ;;
        ask | features | stab) printf '%s\n' "$1" "$2" ;;
        check | build | verify | face | upgrade | edges | valid | dissolve) printf '%s\n' "$1" ;;
    esac
}

# Behind a failed read: which file, and why.
explain_read() {
    local file why
    while IFS= read -r file; do
        why=$(why_unreadable "$file")
        if [[ -n $why ]]; then
            echo "$name: $file: $why"
            return
        fi
    done <<<"$(files_read "$@")"
    echo "$name: each file is there; one changed while it was read, or its disk failed"
}

# Behind a failed write: of the index file that is made why, if that can be seen.
explain_write() {
    local folder
    if [[ $1 == build || $1 == upgrade ]]; then
        folder=$(dirname -- "$3")
        if [[ -d $3 ]]; then
            echo "$name: $3: it is a directory"
        elif [[ ! -d $folder ]]; then
            echo "$name: $3: there is no folder $folder"
        elif [[ -e $3 && ! -w $3 ]] || [[ ! -e $3 && ! -w $folder ]]; then
            echo "$name: $3: there is no leave to write it"
        fi
    fi
}

# A run of over two seconds says how far it is. The process $1 is the shell whose child is the program, $2 the command.
tell_progress() {
    local parent=$1 command=$2 pid='' child doing shown=0
    sleep 2
    while kill -0 "$parent" 2>/dev/null; do
        if [[ -z $pid ]]; then
            for child in $(cat "/proc/$parent/task/$parent/children" 2>/dev/null); do
                [[ $(readlink "/proc/$child/exe" 2>/dev/null) == "$program" ]] && pid=$child
            done
        fi
        if [[ -n $pid ]]; then
            doing=$(stage_of "$pid" "$shown")
            shown=${doing%% *}
            printf '\r\e[K%s %s: %s' "$name" "$command" "${doing#* }"
        fi
        sleep 0.5
    done
}

# How much of its open file the process $1 has read, as 'at size file' in bytes, for the first of the files it has open.
open_file_of() {
    local link file number position
    for link in "/proc/$1/fd/"*; do
        number=${link##*/}
        ((number >= 3)) || continue
        file=$(readlink "$link" 2>/dev/null) || continue
        [[ -f $file ]] || continue
        position=$(sed -n 's/^pos:[[:space:]]*//p' "/proc/$1/fdinfo/$number" 2>/dev/null)
        echo "${position:-0} $(stat -c %s -- "$file" 2>/dev/null || echo 0) $file"
        return
    done
}

# What the process $1 is at, behind the number of its stage. $2 is the number of the stage before: a stage never goes back.
stage_of() {
    local stage=$2 at size file written
    read -r at size file <<<"$(open_file_of "$1")"
    written=$(sed -n 's/^wchar: //p' "/proc/$1/io" 2>/dev/null)
    if ((${written:-0} > 0)) || [[ $stage -ge 3 ]]; then
        stage=3
    elif [[ -z $file ]]; then
        stage=2
    elif [[ $stage -lt 2 ]]; then
        stage=1
    else
        stage=3
    fi
    case $stage in
        1) echo "1 reading ${file##*/}, $(megabytes "$at") of $(megabytes "$size") MB" ;;
        2) echo "2 sweeping the layer" ;;
        3) echo "3 answering, $(megabytes "${written:-0}") MB of answers${file:+, $(megabytes "$at") of $(megabytes "$size") MB of points}" ;;
    esac
}

megabytes() { echo "$(($1 / 1000000)).$(($1 / 100000 % 10))"; }

# Runs the program with these words; what it says on standard error is in $said, its status in $status.
run_program() {
    local monitor=
    if [[ -t 2 ]]; then
        tell_progress "$$" "${1-}" >&2 </dev/null &
        monitor=$!
        # shellcheck disable=SC2064
        trap "kill $monitor 2>/dev/null" EXIT
    fi
    { said=$(exec "$program" "$@" 2>&1 1>&3 3>&-); } 3>&1
    status=$?
    if [[ -n $monitor ]]; then
        kill "$monitor" 2>/dev/null
        wait "$monitor" 2>/dev/null
        trap - EXIT
        printf '\r\e[K' >&2
    fi
}

# The words with the place - read as standard input, in $words. Standard input can be read once.
take_words() {
    local at=0 place taken=
    words=("$@")
    is_command "${1-}" || return 0
    for place in ${places[$1]}; do
        at=$((at + 1))
        if [[ ${words[at]-} == - ]] && is_one_of "$place" LAYER POINTS SPANS; then
            if [[ -n $taken ]]; then
                echo "$name: standard input can stand for one file only" >&2
                exit 2
            fi
            taken=yes
            words[at]=/dev/stdin
        fi
    done
}

front_door() {
    local said status
    local -a words
    answers_help "$@" && exit 0
    take_words "$@"
    if [[ ${words[0]-} == upgrade && ${#words[@]} -eq 3 && ${words[1]} -ef ${words[2]} ]]; then
        echo "$name: ${words[1]} and ${words[2]} are one file: NEW has to be another" >&2
        exit 2
    fi
    # with standard output closed there is nothing to hand on: the program itself says how that ends
    { true 3>&1; } 2>/dev/null || exec "$program" "${words[@]}"
    run_program "${words[@]}"
    case $status in
        2) explain_words "$said" "${words[@]}" >&2 ;;
        3) printf '%s\n%s\n' "$said" "$(explain_read "${words[@]}")" >&2 ;;
        4)
            # if the reader of a pipe went away there is nothing to tell
            if [[ ${1-} == build || ${1-} == upgrade ]]; then
                printf '%s\n' "$said" >&2
                explain_write "${words[@]}" >&2
            elif [[ ! -p /dev/stdout ]]; then
                printf '%s\n' "$said" >&2
            fi
            ;;
        *) [[ -z $said ]] || printf '%s\n' "$said" >&2 ;;
    esac
    exit "$status"
}
