# What every start needs: where the program stands, and whether an earlier start has noted that it is the one of
# these sources. ../scott and the scripts beside this file read it; `top` is the folder of the checkout.

# Where the program is kept: in this checkout or, where nothing can be written or started there, in a folder of the
# user's own. Each has the program (scott), the sums of its sources (sources), and what a start noted (noted, and what
# it looked at, names.0 to names.3); where it was built here, there is also what the toolchain says of itself
# (toolchain).
build=$top/build
own=${XDG_CACHE_HOME:-${HOME:-/nonexistent}/.cache}/scott/${top//\//%}

# Says something on standard error. What can't be printed, as in the name of a file, has a mark in its place.
say() {
    local text=$*
    printf 'scott: %s\n' "${text//[^[:print:]]/?}" >&2
}

# The sizes and times of files and folders, in the order of their names. One that isn't there has no line.
look() {
    cd "$top" && exec stat -c '%s %.9Z' "$@" 2>/dev/null
}

# The same of those whose names a file lists.
look_at() {
    local names
    mapfile -t names <"$1" && look "${names[@]}"
}

# Whether a folder has the program of these sources, as a start has noted: they are as they were then, and no other
# file stands in their folders. Only where one of them has another name, size or time are the sums asked for. A
# quarter of them is looked at beside the others, since there are some thousands.
is_noted() {
    [ -x "$1/scott" ] && [ -s "$1/noted" ] &&
        cat <(look_at "$1/names.0") <(look_at "$1/names.1") <(look_at "$1/names.2") <(look_at "$1/names.3") |
        cmp -s - "$1/noted"
} 2>/dev/null
