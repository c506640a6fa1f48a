# How the program of these sources is found where no start has noted it: the sums of the sources tell it. Where
# program/ has it and it starts here, it is copied; elsewhere it is proved and built. ../scott reads this file.

. "$top/launcher/sources.bash"

# Why the program in program/ isn't started.
why=

# The names of all that a start looks at, how they look, and the sums of the sources, as they stand now.
looked_at=()
looks=
summed=

look_at_sources() {
    read_crates
    mapfile -t looked_at < <(
        printf '%s\n' crates.txt program/scott program/sources program/toolchain "${names[@]/#/crates/}"
        cd "$top" && find "${parts[@]}" -type d 2>/dev/null
        find_sources
    )
    looks=$(look "${looked_at[@]}")
    summed=$(sums)
}

# Notes in a folder that its program is the one of these sources.
note() {
    local quarter=$(((${#looked_at[@]} + 3) / 4)) at
    for at in 0 1 2 3; do
        printf '%s\n' "${looked_at[@]:at*quarter:quarter}" >"$1/names.$at" || return
    done
    printf '%s\n' "$looks" >"$1/noted.$$" && mv -f "$1/noted.$$" "$1/noted"
} 2>/dev/null

# Whether a folder has the program of these sources, built here or as program/ has it.
is_fresh() {
    [ -x "$1/scott" ] && [ -r "$1/sources" ] && [ "$summed" = "$(<"$1/sources")" ] &&
        { [ -e "$1/toolchain" ] || cmp -s "$1/scott" "$top/program/scott"; }
}

# Whether a program starts here. Without words it says its usage and ends with 1; where the C library is too old it
# ends with 1 too, so what it says counts.
starts() {
    local said status
    { said=$("$1" 2>&1 </dev/null); } 2>/dev/null
    status=$?
    [ "$status" -ne 1 ] || [[ $said != 'usage: scott '* ]] || return 0
    case $status in
        126) why="the system doesn't start it (${said##*: })" ;;
        132) why="it needs the instructions of x86-64-v2, which this processor lacks" ;;
        *) why="without words it ends with status $status and says: ${said%%$'\n'*}" ;;
    esac
    return 1
}

# Whether program/ is whole, and has the program of these sources.
is_kept() {
    local name changed
    for name in scott sources toolchain; do
        if [ ! -s "$top/program/$name" ]; then
            why="there is no program/$name"
            return 1
        fi
    done
    [ "$summed" != "$(<"$top/program/sources")" ] || return 0
    changed=$(changed_sources "$top/program/sources" <(printf '%s\n' "$summed"))
    why="it was built from other sources than these: $(count "$changed")"
    return 1
}

# The first of some names, and how many more there are.
count() {
    local more=${1//[^$'\n']/}
    printf '%s differs' "${1%%$'\n'*}"
    [ -z "$more" ] || printf ', and so do %s more' "${#more}"
}

# Puts a program into a folder, with the sums of its sources, and notes that it is there. What is noted goes first,
# so that it never stands beside another program.
put() {
    rm -f "$2/noted" "$2/sources" "$2/toolchain"
    mv -f "$1" "$2/scott" && printf '%s\n' "$summed" >"$2/sources" && note "$2"
}

# Copies the program in program/ to a folder, if it can be written and started there.
take() {
    local made=$1/scott.$$
    if copy_to "$made" 2>/dev/null && starts "$made" && put "$made" "$1"; then
        return
    fi
    rm -f "$made" 2>/dev/null
    return 1
}

copy_to() {
    mkdir -p "${1%/*}" && cp "$top/program/scott" "$1" && chmod 755 "$1"
}

# Copies the program in program/ to where it starts. Where no folder can be written it is started as it stands.
take_kept() {
    local folder
    why="it can be copied neither to $build nor to $own"
    for folder in "$build" "$own"; do
        if take "$folder"; then
            program=$folder/scott
            return
        fi
    done
    program=$top/program/scott
    [ -x "$program" ] && starts "$program"
}

# Finds the program, or proves and builds it, and ends where that can't be done.
find_program() {
    local folder
    look_at_sources
    for folder in "$build" "$own"; do
        if is_fresh "$folder"; then
            note "$folder"
            program=$folder/scott
            return
        fi
    done
    if ! is_kept || ! take_kept; then
        say "the program in program/ is not the one to start: $why"
        . "$top/launcher/building.bash"
        build_program
    fi
}
