# shellcheck shell=bash
# Completion of planar-locate for bash.
_planar_locate() {
    local word=${COMP_WORDS[COMP_CWORD]} before=${COMP_WORDS[COMP_CWORD - 1]} command=${COMP_WORDS[1]-} options
    local commands="query features check build ask verify face gen trial upgrade edges stab valid dissolve help"
    COMPREPLY=()
    if ((COMP_CWORD == 1)); then
        mapfile -t COMPREPLY < <(compgen -W "$commands --help --version" -- "$word")
        return
    fi
    case $command in
        query) options="--scale --form --index --order --shuffle --faces --help" ;;
        features | check | build | face | stab | valid | dissolve) options="--scale --form --help" ;;
        trial) options="--index --help" ;;
        *) options="--help" ;;
    esac
    case $before in
        --form) mapfile -t COMPREPLY < <(compgen -W "lines csv" -- "$word") ;;
        --index) mapfile -t COMPREPLY < <(compgen -W "scan tree trap" -- "$word") ;;
        --scale) mapfile -t COMPREPLY < <(compgen -W "{0..15}" -- "$word") ;;
        gen | trial) mapfile -t COMPREPLY < <(compgen -W "grid nest strips" -- "$word") ;;
        help) mapfile -t COMPREPLY < <(compgen -W "$commands" -- "$word") ;;
        *)
            if [[ $word == -* ]]; then
                mapfile -t COMPREPLY < <(compgen -W "$options" -- "$word")
            else
                mapfile -t COMPREPLY < <(compgen -f -- "$word")
            fi
            ;;
    esac
}
complete -o filenames -F _planar_locate planar-locate
