# How the program is run where its output or its standard error is a terminal: what it says is fitted to the terminal,
# and what it doesn't say of its end stands on standard error. ../scott reads this file.

# What a status means for which the program says nothing.
explain() {
    case $1 in
        3) say "status 3: the output was closed or took no more, or a line of input had more than 65,536 bytes" ;;
        9) say "status 9: there was not enough memory" ;;
        12) say "status 12: a word of the command line is no text in UTF-8; a file of such a name has to be renamed" ;;
    esac
}

# Runs the program with words, and ends with its status. Standard output has what the program says, and nothing else.
run_on_terminal() {
    local status
    case $#,${1:-} in
        1,--help | 1,-h | 1,--version)
            if [ -t 1 ]; then
                . "$top/launcher/forms.bash"
                [ "$1" != --version ] || say_version
                say_forms
                exit 0
            fi
            ;;
    esac
    if [ -t 1 ]; then
        . "$top/launcher/wrapping.bash"
        {
            echo "$BASHPID"
            exec "$program" "$@"
        } | wrap
        status=${PIPESTATUS[0]}
    else
        "$program" "$@"
        status=$?
    fi
    [ ! -t 2 ] || say_more "$status" "$@"
    exit "$status"
}

# Says on standard error what the program doesn't say of a status: which word is no setting, where in a file a fault
# stands, or what the status means. The rest are the program's words.
say_more() {
    local status=$1
    shift
    case $status in
        1)
            . "$top/launcher/forms.bash"
            case "$*" in
                '' | --help | -h | --version) say_forms ;;
                *) name_faults "$@" ;;
            esac
            ;;
        4 | 5 | 6)
            . "$top/launcher/places.bash"
            show_place "$@"
            ;;
        *) explain "$status" ;;
    esac
}
