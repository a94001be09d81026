# Completion of capcheck's words in bash:  source docs/capcheck.bash
_capcheck() {
    local word="${COMP_WORDS[COMP_CWORD]}"
    if ((COMP_CWORD == 1)); then
        mapfile -t COMPREPLY < <(compgen -W "probe show list asm pack check verify install run defend trial bound transform share gen --help" -- "$word")
        return
    fi
    case "${COMP_WORDS[1]}" in
        probe) ((COMP_CWORD == 2)) || return ;;
        bound) ((COMP_CWORD > 2)) || return ;;
        run | defend | trial) ((COMP_CWORD > 3)) || return ;;
        gen) ((COMP_CWORD == 3)) || return ;;
    esac
    mapfile -t COMPREPLY < <(compgen -d -- "$word")
}
complete -o filenames -F _capcheck capcheck ./capcheck
