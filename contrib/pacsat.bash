# Completion of the words of pacsat(1) for bash: the disk, the air, the command, its options, and files where it takes them.
# Put it where bash-completion looks, as scripts/install does: PREFIX/share/bash-completion/completions/pacsat.

# The places of the command's words that are files of the working folder, counted from 1.
_pacsat_files() {
    case "$1" in
    send) echo 3 ;;
    fetch) echo 4 ;;
    frames | pfh-show | pfh-check | rehearse) echo 1 ;;
    pfh-make | pfh-body) echo 1 2 ;;
    esac
}

# The command's options, each of which takes a value.
_pacsat_options() {
    case "$1" in
    serve) echo --k --blocks --polls ;;
    session) echo --moment --blocks --polls ;;
    send | fetch | list) echo --k --polls ;;
    pfh-make) echo --name --ext --type --time --source --destination --title ;;
    rehearse) echo --seed --count ;;
    esac
}

_pacsat() {
    # (by the line, since bash takes a host and its port for three words)
    local text="${COMP_LINE:0:COMP_POINT}" words at word before command place
    read -r -a words <<<"${text#* }"
    case "$text" in *' ') words+=('') ;; esac
    at=${#words[@]}
    word="${words[at - 1]:-}"
    before=
    [ "$at" -lt 2 ] || before="${words[at - 2]}"
    command="${words[2]:-}"
    COMPREPLY=()
    case "$at" in
    1) COMPREPLY=($(compgen -f -W "none --help --version" -- "$word")) ;;
    2) COMPREPLY=($(compgen -W "- none 127.0.0.1:8001" -- "$word")) ;;
    3) COMPREPLY=($(compgen -W "serve session send fetch list frames pfh-make pfh-body pfh-show pfh-check rehearse" -- "$word")) ;;
    *)
        case "$before" in --*) return ;; esac
        case "$word" in
        -*)
            COMPREPLY=($(compgen -W "$(_pacsat_options "$command")" -- "$word"))
            return
            ;;
        esac
        for place in $(_pacsat_files "$command"); do
            if [ "$place" -eq "$((at - 3))" ]; then
                COMPREPLY=($(compgen -f -- "$word"))
            fi
        done
        ;;
    esac
}

complete -o filenames -F _pacsat pacsat
