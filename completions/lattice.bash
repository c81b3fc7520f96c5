# Completion of the commands and options of `lattice` for bash: source this file.
_lattice() {
    local word=${COMP_WORDS[COMP_CWORD]} previous=${COMP_WORDS[COMP_CWORD - 1]}
    if [ "$COMP_CWORD" -eq 1 ]; then
        COMPREPLY=($(compgen -W "synth map dual pairs verify audit renew cnf check trial" -- "$word"))
        return
    fi
    case $previous in
        --*) COMPREPLY=(); return ;;
    esac
    case ${COMP_WORDS[1]} in
        pairs | dual) COMPREPLY=($(compgen -W "--output" -- "$word")) ;;
        cnf) COMPREPLY=($(compgen -W "--rows --cols --output" -- "$word")) ;;
        synth) COMPREPLY=($(compgen -W "--conflicts --output --rails" -- "$word") $(compgen -f -- "$word")) ;;
        map) COMPREPLY=($(compgen -W "--conflicts --output" -- "$word") $(compgen -f -- "$word")) ;;
        trial) COMPREPLY=($(compgen -W "--conflicts" -- "$word") $(compgen -f -- "$word")) ;;
        verify | check | audit | renew) COMPREPLY=($(compgen -f -- "$word")) ;;
    esac
}
complete -o filenames -F _lattice lattice
