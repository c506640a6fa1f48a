# What the program is built from: the crates that it stands on and its own, their lines of crates.txt, and the sums
# of their sources. The launcher and the scripts beside this file read it; `top` is the folder of the checkout.

# The program's own crate.
program_crate=scott_main

# The crates that the program stands on and its own, lowest first, and the folders of their sources.
names=()
parts=()

# The names of the crates that the program stands on, lowest first, and its own.
list_crates() {
    awk -F: -v program="$program_crate" '
        /^[ \t]*(#|$)/ { next }
        { split($1, head, " "); name[++count] = head[1]; below[head[1]] = $2 }
        END {
            wanted[program] = 1
            for (changed = 1; changed;) {
                changed = 0
                for (i = 1; i <= count; i++) if (name[i] in wanted) {
                    many = split(below[name[i]], lower, " ")
                    for (j = 1; j <= many; j++) if (lower[j] in below && !(lower[j] in wanted)) {
                        wanted[lower[j]] = changed = 1
                    }
                }
            }
            for (i = 1; i <= count; i++) if (name[i] in wanted) print name[i]
        }' "$top/crates.txt"
}

# Reads the crates into `names`, and the folders of their sources into `parts`.
read_crates() {
    local name
    names=() parts=()
    while read -r name; do
        names+=("$name")
        parts+=("crates/$name/src" "crates/$name/specs" "crates/$name/proofs")
    done < <(list_crates)
}

# The lines of crates.txt that speak of these crates, without what is no part of them.
crate_lines() {
    sed 's/#.*//; s/[[:space:]]\{1,\}/ /g; s/^ //; s/ $//' "$top/crates.txt" |
        awk -v names=" ${names[*]} " '{ split($1, head, ":") } index(names, " " head[1] " ")' | LC_ALL=C sort
}

# The sources: no other file is read by a proof, so that one that an editor leaves there counts for nothing.
find_sources() {
    find "${parts[@]}" -type f \( -name '*.rt' -o -name '*.antt' \) "$@" 2>/dev/null
}

# The lines of crates.txt, and the sums and names of all sources. Times and owners don't count.
sums() (
    crate_lines
    cd "$top" && find_sources -print0 | LC_ALL=C sort -z | xargs -0 sha256sum
)

# The sources whose sums in one file aren't those in another, one a line.
changed_sources() {
    diff "$1" "$2" | sed -n 's/^[<>] [0-9a-f]\{64\}  //p; s/^[<>] [a-z0-9_]*[ :].*/crates.txt/p' | LC_ALL=C sort -u
}
