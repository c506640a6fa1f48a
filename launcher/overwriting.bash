# What is asked before a command that writes a file takes away what its author has written. ../scott reads this file.

# Whether a file is a source: its first word, after comments, is that of a source's header.
is_source() {
    [ -f "$1" ] && head -c 65536 "$1" | LC_ALL=C grep -a -v -m 1 -E '^[[:space:]]*(#.*)?$' |
        LC_ALL=C grep -a -q -E '^[[:space:]]*header([^A-Za-z0-9_]|$)'
}

# The file that a command writes, and those that it reads; the position that a play goes on from is no loss, since the
# one that is kept takes its place.
find_files() {
    local word
    written= read_files=()
    case $1 in
        transfer) written=${4:-} read_files=("${2:-}" "${3:-}") ;;
        play)
            read_files=("${2:-}")
            for word in "${@:3}"; do
                case $word in
                    save=*) written=${word#save=} ;;
                    draws=*) read_files+=("${word#draws=}") ;;
                esac
            done
            ;;
        *) written=${3:-} read_files=("${2:-}") ;;
    esac
}

# Says what would be lost by a command, and asks on a terminal whether it is to be done all the same.
ask_first() {
    local loss= answer= written name
    local -a read_files
    find_files "$@"
    [ -n "$written" ] || return 0
    for name in "${read_files[@]}"; do
        [[ ! $name -ef $written ]] || loss="$written is a file that is read, and what is written replaces it"
    done
    if [ -z "$loss" ] && is_source "$written"; then
        loss="$written is a source, and what is written replaces it"
    fi
    [ -n "$loss" ] || return 0
    say "$loss"
    [ -t 0 ] && [ -t 2 ] || return 0
    read -r -p 'scott: go on? [y/N] ' answer
    [[ $answer != [yY]* ]] || return 0
    say "nothing is written"
    exit 126
}
