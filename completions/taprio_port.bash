# made by completions/make from the help of taprio_port
_taprio_port() {
    local current=${COMP_WORDS[COMP_CWORD]} previous=${COMP_WORDS[COMP_CWORD-1]} words values
    COMPREPLY=()
    if [ "$COMP_CWORD" -eq 1 ]; then
        COMPREPLY=($(compgen -W 'script replay check streams bounds paths plan draw frames compare help --help --version' -- "$current"))
        return
    fi
    case ${COMP_WORDS[1]} in
        script) words='--rate --mtu --room --until --tolerant --device --summary --strict --strict-frames --explain --help' values='--rate --mtu --room --until --device' ;;
        replay) words='--rate --mtu --room --until --stamp --shift --format --fcs --tolerant --device --summary --progress --strict --strict-frames --explain --help' values='--rate --mtu --room --until --stamp --shift --format --fcs --device' ;;
        check) words='--rate --mtu --map --shares --windows --frame --script --tolerant --device --strict --explain --help' values='--rate --mtu --map --frame --device' ;;
        streams) words='--with --from --late --seed --capture --strict --explain --help' values='--with --from --seed --capture' ;;
        bounds) words='--rate --mtu --room --map --frames --silent --leftovers --slack --why --tolerant --device --strict --explain --help' values='--rate --mtu --room --map --frames --silent --device' ;;
        paths) words='--rate --mtu --room --frames --silent --leftovers --next --tolerant --strict --explain --help' values='--rate --mtu --room --frames --silent --next' ;;
        plan) words='--rate --mtu --room --cycle --entries --least-interval --device --base-time --share --explain --help' values='--rate --mtu --room --cycle --entries --least-interval --device --base-time' ;;
        draw) words='--rate --mtu --room --until --capture --format --fcs --from --to --width --tolerant --device --strict --explain --help' values='--rate --mtu --room --until --capture --format --fcs --from --to --width --device' ;;
        frames) words='--rate --mtu --room --until --capture --format --fcs --by-stream --tolerant --device --strict --explain --help' values='--rate --mtu --room --until --capture --format --fcs --by-stream --device' ;;
        compare) words='--by --within --explain --help' values='--by --within' ;;
        *) return ;;
    esac
    case " $values " in
        *" $previous "*) case $previous in --with|--by-stream|--capture) compopt -o default ;; esac; return ;;
    esac
    case $current in
        -*) COMPREPLY=($(compgen -W "$words" -- "$current")) ;;
        *) compopt -o default ;;
    esac
}
complete -F _taprio_port taprio_port ./taprio_port
