# Completion of ertime(1) for bash.
_ertime() {
    COMPREPLY=()
    if ((COMP_CWORD == 1)); then
        mapfile -t COMPREPLY < <(compgen -W 'run race live stress' -- "${COMP_WORDS[COMP_CWORD]}")
    fi
}
complete -F _ertime ertime
