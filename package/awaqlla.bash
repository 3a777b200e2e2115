# Completion of the command awaqlla for bash: its commands, the options that a command takes, and files.
# tests/package-check holds both lists to the help.

_awaqlla() {
    local word=${COMP_WORDS[COMP_CWORD]} options=
    if [ "$COMP_CWORD" = 1 ]; then
        mapfile -t COMPREPLY < <(compgen -W "append list survey slots record plot page merge index trial band day date refusal selftest demo install --help --version" -- "$word")
        return
    fi
    case ${COMP_WORDS[1]} in
    append) options="--profile --index --log --wait" ;;
    list | survey) options="--profile" ;;
    slots) options="--tsv" ;;
    merge) options="--wait" ;;
    record) options="--ticks --at" ;;
    index) options="--make --check --wait" ;;
    esac
    mapfile -t COMPREPLY < <(compgen -W "$options --help" -- "$word"; compgen -f -- "$word")
}
complete -o filenames -F _awaqlla awaqlla
