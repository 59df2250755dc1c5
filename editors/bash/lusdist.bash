# Completion of the words of `lusdist` in bash. tools/completions wrote it.
#
#     . lusdist.bash

_lusdist() {
    local word=${COMP_WORDS[COMP_CWORD]} before=${COMP_WORDS[COMP_CWORD-1]} flags= words= endings=() place=0 i
    if [ "$COMP_CWORD" -eq 1 ]; then
        COMPREPLY=($(compgen -W 'check eval new plan replay run explain help --help --version' -- "$word"))
        return
    fi
    case ${COMP_WORDS[1]} in
        check)
            flags='--main --explain --short --all --warn --help'
            endings=(lus)
            case $before in
                --main) COMPREPLY=(); return ;;
            esac
            ;;
        eval)
            flags='--main --explain --short --all --deep --text --chronogram --from --to --vcd --always --help'
            endings=(lus csv)
            case $before in
                --main) COMPREPLY=(); return ;;
                --from) COMPREPLY=(); return ;;
                --to) COMPREPLY=(); return ;;
                --vcd) COMPREPLY=($(compgen -f -- "$word")); return ;;
                --always) COMPREPLY=(); return ;;
            esac
            ;;
        new)
            flags='--main --explain --short --table --help'
            endings=(lus)
            case $before in
                --main) COMPREPLY=(); return ;;
                --table) COMPREPLY=(); return ;;
            esac
            ;;
        plan)
            flags='--main --explain --short --warn --text --dot --help'
            endings=(lus toml)
            case $before in
                --main) COMPREPLY=(); return ;;
            esac
            ;;
        replay)
            flags='--main --explain --short --random --turns --finish --trace --chart --messages --blocked --from --to --vcd --always --help'
            endings=(lus toml csv '')
            case $before in
                --main) COMPREPLY=(); return ;;
                --random) COMPREPLY=(); return ;;
                --turns) COMPREPLY=(); return ;;
                --from) COMPREPLY=(); return ;;
                --to) COMPREPLY=(); return ;;
                --vcd) COMPREPLY=($(compgen -f -- "$word")); return ;;
                --always) COMPREPLY=(); return ;;
            esac
            ;;
        run)
            flags='--main --explain --short --workers --progress --items --stats --vcd --always --help'
            endings=(lus toml csv)
            case $before in
                --main) COMPREPLY=(); return ;;
                --workers) COMPREPLY=($(compgen -W "auto $(seq 1 16)" -- "$word")); return ;;
                --vcd) COMPREPLY=($(compgen -f -- "$word")); return ;;
                --always) COMPREPLY=(); return ;;
            esac
            ;;
        explain)
            flags='--help'
            words='F01 F02 E01 E02 E03 E04 E05 E10 E11 E12 E13 E14 E15 E16 E17 E18 E19 E20 E21 E22 E23 E30 E31 E40 E50 P01 P02 P03 P04 P05 P06 P07 P08 T01 T02 T03 T04 S01 S02 R1 A1 R2 R3 R4'
            ;;
        help)
            words='check eval new plan replay run explain'
            ;;
    esac
    if [ "${word#-}" != "$word" ]; then
        COMPREPLY=($(compgen -W "$flags" -- "$word"))
        return
    fi
    if [ -n "$words" ]; then
        COMPREPLY=($(compgen -W "$words" -- "$word"))
        return
    fi
    for ((i = 2; i < COMP_CWORD; i++)); do
        case ${COMP_WORDS[i]} in
            --always|--from|--main|--random|--table|--to|--turns|--vcd|--workers) i=$((i + 1)) ;;
            -*) ;;
            *) place=$((place + 1)) ;;
        esac
    done
    COMPREPLY=($(compgen -d -- "$word") $(compgen -f -X "!*.${endings[place]:-*}" -- "$word"))
    compopt -o filenames 2>/dev/null
}
complete -F _lusdist lusdist
