# Completion of troughiron's words for bash: its commands, their options, the kinds of devices, and files.

_troughiron_options() {
    case $1 in
        new) echo --fill --memory --serial --empty --force ;;
        show | check) echo --json ;;
        edit) echo --output --force ;;
        run) echo --output --trace --answers --write-trace --vcd --html --json --bits --quiet --room --force ;;
        test) echo --junit --json --force ;;
        judge) echo --answers --trace --json ;;
        search) echo --json --answers --write-trace --vcd --force ;;
        serve) echo --adapter --link --output --record --log --script --quiet --force ;;
    esac
}

_troughiron() {
    local word=${COMP_WORDS[COMP_CWORD]} before=${COMP_WORDS[COMP_CWORD - 1]} command=${COMP_WORDS[1]} words=''

    if [ "$COMP_CWORD" = 1 ]; then
        words='new show edit run test judge search check serve help --version --help'
    elif [ "$command" = help ]; then
        words='new show edit run test judge search check serve'
    elif [ "$before" = --adapter ]; then
        words='ds9097 ds2480b'
    elif [ "${word#-}" != "$word" ]; then
        words="$(_troughiron_options "$command") --help"
    elif [ "$command" = edit ] && [ "$COMP_CWORD" = 3 ]; then
        words='add remove set take'
    elif [ "$command" = new ] && [ "$COMP_CWORD" -gt 2 ] || [ "$command $before" = 'edit add' ]; then
        words='ds1992 ds1993 ds1996 ds1982 ds1992,flat ds1993,flat ds1996,flat'
    fi
    COMPREPLY=()
    if [ -n "$words" ]; then
        mapfile -t COMPREPLY < <(compgen -W "$words" -- "$word")
    fi
}

# Where none of these words is meant, bash completes files.
complete -o default -F _troughiron troughiron
