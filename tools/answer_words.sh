#!/bin/sh
# Answers arguments that need no program, as the program would: help, the version, and usage errors. The status
# is that of the answer, 0 or 64, and 1 if the arguments need the program. The arguments of each command are
# read from its help.
set -u

top=$(CDPATH='' cd -- "$(dirname -- "$0")/.." && pwd -P)

# Prints the program's output for these arguments, given with bars between them, from the list with which the
# gate compares its answers.
text_of() {
    sed -n "/^> $1\$/,/^= /p" "$top/crates/cli_tests/stdout" | sed '1d;$d'
}

# Prints this text, and ends.
print_text() {
    text_of "$1"
    exit 0
}

# Prints why the arguments are refused, with a line of usage if there is one, and ends.
refuse() {
    printf 'error: %s\n\n' "$1" >&2
    [ -z "$2" ] || printf '%s\n\n' "$2" >&2
    echo "For more information, try '--help'." >&2
    exit 64
}

# Succeeds if the program has this command.
is_command() {
    for command in $(text_of help | sed -n '/^Commands:/,/^$/s/^  \([a-z]*\) .*/\1/p'); do
        [ "$command" != "$1" ] || return 0
    done
    return 1
}

# Refuses a word that is not one of the values that the command ($1) allows for this argument ($2).
check_value() {
    values=$(text_of "help|$1" |
        awk -v name="$2" '$1 == name && match($0, /\[possible values: .*\]/) { print substr($0, RSTART, RLENGTH) }')
    allowed=${values#"[possible values: "}
    case ", ${allowed%]}, " in
        ", , " | *", $3, "*) ;;
        *) refuse "invalid value '$3' for '$2'
  $values" '' ;;
    esac
}

# Answers the arguments of a command if they request its help or do not match its usage.
check_words() {
    name=$1
    shift
    usage=$(text_of "help|$name" | grep '^Usage: ')
    for word in "$@"; do
        case $word in
            --) return ;;
            -h | --help) print_text "help|$name" ;;
            -?*) refuse "unexpected argument '$word' found

  tip: to pass '$word' as a value, use '-- $word'" "$usage" ;;
        esac
    done
    missing=
    is_flag=true
    # The usage has brackets, which must not expand as patterns.
    set -f
    for place in ${usage#"Usage: planner $name"}; do
        if [ $# -gt 0 ]; then
            check_value "$name" "$place" "$1"
            [ "$place" != '[routes]' ] || [ "$1" = routes ] || is_flag=false
            shift
        elif [ "${place#<}" != "$place" ]; then
            missing="$missing
  $place"
        fi
    done
    [ $# -eq 0 ] || refuse "unexpected argument '$1' found" "$usage"
    [ -z "$missing" ] || refuse "the following required arguments were not provided:$missing" "$usage"
    $is_flag || refuse "the arguments are $(printf '%s' "${usage#"Usage: planner $name "}" | tr -d '<>'), and KIND is lilim, solomon or vrp, perhaps with :10, :100 or :1000" "$usage"
}

[ $# -gt 0 ] || exit 1
usage=$(text_of help | grep '^Usage: ') || exit 1
case $1 in
    -h | --help) print_text help ;;
    -V | --version) print_text --version ;;
    --) exit 1 ;;
    -?*) refuse "unexpected argument '$1' found" "$usage" ;;
    help)
        [ "${2-help}" != help ] || print_text help
        is_command "$2" || refuse "unrecognized subcommand '$2'" "$usage"
        [ $# -eq 2 ] || refuse "unrecognized subcommand '$3'" "$(text_of "help|$2" | grep '^Usage: ')"
        print_text "help|$2"
        ;;
esac
is_command "$1" || refuse "unrecognized subcommand '$1'" "$usage"
check_words "$@"
exit 1
