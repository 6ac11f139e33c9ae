# Completion of sec1_dump for bash.
_sec1_dump() {
    local word=${COMP_WORDS[COMP_CWORD]}
    case ${COMP_WORDS[COMP_CWORD - 1]} in
    --offset | --depth) COMPREPLY=() ;;
    *)
        if [[ $word = -* ]]; then
            COMPREPLY=($(compgen -W '--all --json --offset --depth --help --version' -- "$word"))
        else
            compopt -o filenames
            mapfile -t COMPREPLY < <(compgen -f -- "$word")
        fi
        ;;
    esac
}
complete -F _sec1_dump sec1_dump
