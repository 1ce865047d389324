# shellcheck shell=bash
# What bash offers behind `rvtest` and `rvfleet`: their commands, the options of each, files, and the names of a list's jobs.
_rvfleet_options() {
    case "$1 $2" in
        'rvtest run') echo '--only --match --exclude --failed --partial --shard --stamp --workers --group --budget --root --into --report --junit --suite --lenient --counts --stacks --known --stop-after --verbose --quiet --last --color --help' ;;
        'rvtest list') echo '--only --match --exclude --failed --partial --lenient --help' ;;
        'rvtest explain') echo '--last --budget --root --color --help' ;;
        'rvtest console') echo '--root --help' ;;
        'rvtest gdb') echo '--root --memory --help' ;;
        'rvtest check') echo '--root --help' ;;
        'rvtest accept') echo '--only --match --exclude --failed --partial --ends --check --outside --workers --group --root --help' ;;
        'rvtest merge') echo '--report --junit --suite --lenient --help' ;;
        'rvtest diff') echo '--partial --steps --slower --color --help' ;;
        'rvtest show') echo '--partial --junit --suite --lenient --color --help' ;;
        'rvtest counts') echo '--out --help' ;;
        'rvtest cover') echo '--only --match --exclude --failed --partial --shard --lenient --workers --group --root --counts --csv --help' ;;
        'rvtest profile') echo '--only --match --exclude --failed --partial --shard --lenient --workers --group --root --counts --top --csv --help' ;;
        'rvtest help') echo ' --help' ;;
        'rvfleet raw') echo '--budget --help' ;;
        'rvfleet one') echo '--budget --input-hex --help' ;;
        'rvfleet run') echo '--workers --group --help' ;;
    esac
}

# The names of the jobs of the first file on the line behind the command.
_rvfleet_jobs() {
    local each
    for each in "${COMP_WORDS[@]:2:COMP_CWORD-2}"; do
        if [ -f "$each" ]; then
            "${COMP_WORDS[0]}" list "$each" 2>/dev/null
            return
        fi
    done
}

# Whether the word is the second one of a command that takes a list and a job's name.
_rvfleet_is_named() {
    [[ " explain console gdb profile " = *" ${COMP_WORDS[1]} "* && $COMP_CWORD -gt 2 && -f ${COMP_WORDS[COMP_CWORD - 1]} ]]
}

# The words of which one is wanted behind another word: by the program, the place, and the word before.
_rvfleet_choices() {
    case "$1" in
        'rvtest 2 help') echo 'run list explain console gdb check accept merge diff show counts cover profile help keys' ;;
        *' --color') echo 'always never auto' ;;
    esac
}

_rvfleet() {
    local word=$2 before=$3 commands='run list explain console gdb check accept merge diff show counts cover profile help --version --help'
    COMPREPLY=()
    [ "${1##*/}" = rvtest ] || commands='raw one run --help'
    if [ "$COMP_CWORD" = 1 ]; then
        mapfile -t COMPREPLY < <(compgen -W "$commands" -- "$word")
    elif [[ $word = -* ]]; then
        mapfile -t COMPREPLY < <(compgen -W "$(_rvfleet_options "${1##*/}" "${COMP_WORDS[1]}")" -- "$word")
    elif [[ " --root " = *" $before "* ]]; then
        mapfile -t COMPREPLY < <(compgen -d -- "$word")
    elif [[ " --only " = *" $before "* ]] || _rvfleet_is_named; then
        mapfile -t COMPREPLY < <(compgen -W "$(_rvfleet_jobs)" -- "$word")
    elif [ -n "$(_rvfleet_choices "${1##*/} $COMP_CWORD $before")" ]; then
        mapfile -t COMPREPLY < <(compgen -W "$(_rvfleet_choices "${1##*/} $COMP_CWORD $before")" -- "$word")
    elif [[ " --budget --exclude --group --input-hex --last --match --memory --shard --slower --stamp --stop-after --suite --top --workers -j " != *" $before "* ]]; then
        mapfile -t COMPREPLY < <(compgen -f -- "$word")
    fi
}

complete -o filenames -F _rvfleet rvtest rvfleet
