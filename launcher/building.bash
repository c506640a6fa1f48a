# How the program is proved and built; program.bash reads this file where that has to be done, and build does.
#
# The toolchain's gate does it, on a copy of the program's crates alone, without the edits that must fail. The copy
# has a folder of its own, which is removed in the end, so that neither a gate nor a check in this checkout waits
# for it. What the gate has proved on this machine it takes from there, and what is proved here it leaves for it.

# What the dearest prover may take, in megabytes; what 1,000 lines of code take: megabytes of the disk, and seconds
# of one processor; and the least megabytes of the disk that the gate wants.
prover_memory=4000
disk_per_1000=320
seconds_per_1000=280
least_disk=3000

# The part of the work that has to be done one after another, in hundredths: what more than four processors gain ends
# there.
in_a_row=22

# The lines of code of each crate and of all, and the second at which a prover began with it.
declare -gA lines began
all_lines=0

# The folder of the copy, and the prover that works there.
workshop=
prover=

# The folder that the program is built into.
folder=

# Whether a folder can be written, and what stands in it can be started.
is_usable() {
    local try=$1/try.$$
    { mkdir -p "$1" && printf '#!/bin/sh\n' >"$try" && chmod 755 "$try" && "$try"; } 2>/dev/null
    local status=$?
    rm -f "$try" 2>/dev/null
    return "$status"
}

# Megabytes as gigabytes.
gigabytes() {
    echo "$(($1 / 1000)).$(($1 % 1000 / 100)) GB"
}

# The megabytes of memory that the machine can give, under the limit of the control group too.
free_memory() {
    local free limit held
    free=$(awk '/^(MemAvailable|SwapFree):/ { sum += $2 } END { print int(sum / 1024) }' /proc/meminfo)
    limit=$(cat /sys/fs/cgroup/memory.max 2>/dev/null)
    if [[ $limit =~ ^[0-9]+$ ]]; then
        held=$(awk '$1 == "anon" { print $2 }' /sys/fs/cgroup/memory.stat)
        limit=$(((limit - ${held:-0}) / 1048576))
        [ "$limit" -ge "$free" ] || free=$limit
    fi
    echo "$free"
}

# The folder in which the copy is made.
spare=${TMPDIR:-/var/tmp}

free_disk() {
    df -Pm "$spare" | awk 'NR == 2 { print $4 }'
}

count_lines() {
    local name
    for name in "${names[@]}"; do
        lines[$name]=$(find "$top/crates/$name/src" -name '*.rt' -exec cat {} + | wc -l)
        all_lines=$((all_lines + lines[$name]))
    done
}

# About how many minutes it takes where nothing is proved yet.
minutes() {
    local hundredths=$((100 / places))
    [ "$hundredths" -ge "$in_a_row" ] || hundredths=$in_a_row
    echo $((all_lines * seconds_per_1000 * hundredths / 6000000 + 1))
}

# Says once what is going to be done, how long that takes, and with what. Where the machine can't give it, that is
# said before anything is done.
say_plan() {
    local memory disk wanted places
    memory=$(free_memory)
    disk=$(free_disk)
    wanted=$((all_lines * disk_per_1000 / 1000))
    places=$(nproc)
    say "proving ${#names[@]} crates on $places processors, and building the program: about $(minutes) minutes where"
    say "no gate has proved them on this machine, up to $(gigabytes $prover_memory) of memory for one prover" \
        "($(gigabytes "$memory") free), and for that time up to $(gigabytes $wanted) of disk in $spare ($(gigabytes "$disk") free)"
    if [ "$memory" -lt "$prover_memory" ]; then
        say "that is too little memory: close what else takes it, or build on another machine"
        return 1
    elif [ "$disk" -lt "$least_disk" ]; then
        say "that is too little disk: make room there, or name another folder in TMPDIR"
        return 1
    elif [ "$disk" -lt "$wanted" ]; then
        say "the disk may not be enough"
    fi
}

# Copies the crates that the program stands on.
make_workshop() {
    local name
    workshop=$(mktemp -d "$spare/scott.XXXXXX") || return
    mkdir "$workshop/crates" "$workshop/.git" || return
    [ ! -e "$top/HANDLES" ] || cp "$top/HANDLES" "$workshop" || return
    for name in "${names[@]}"; do
        mkdir "$workshop/crates/$name" || return
        (cd "$top/crates/$name" && tar -cf - --exclude=./out --exclude=./must-fail .) | tar -xf - -C "$workshop/crates/$name" || return
    done
    find "$workshop/crates" -type l -exec rm {} +
    crate_lines >"$workshop/crates.txt"
}

remove_workshop() {
    [ -z "$workshop" ] || rm -rf "$workshop"
    workshop=
}

# The crates that are proved: the gate has written a heading for each, or a line for one that was proved before.
proved() {
    sed -n 's/^== \([a-z0-9_]*\)$/\1/p; s/^rt: \([a-z0-9_]*\) is kept: .*/\1/p' "$folder/log"
}

# Whether a crate is being proved: it has an output, and is not proved yet.
is_running() {
    [ -e "$workshop/crates/$1/out" ] || return
    [ -n "${began[$1]:-}" ] || began[$1]=$SECONDS
}

# How much of a crate is done that is being proved, in hundredths, by the time that its lines may take.
share_of() {
    local share=$((100 * (SECONDS - began[$1]) * 1000 / (lines[$1] * seconds_per_1000 + 1)))
    echo $((share < 95 ? share : 95))
}

# How far all is, in hundredths, by the lines of code; and what is being proved now.
progress() {
    local name done=0 headings running=
    headings=" $(proved | tr '\n' ' ') "
    for name in "${names[@]}"; do
        if [[ $headings == *" $name "* ]]; then
            done=$((done + lines[$name]))
        elif is_running "$name"; then
            running+=" $name"
            done=$((done + lines[$name] * $(share_of "$name") / 100))
        fi
    done
    echo "about $((100 * done / (all_lines + 1))) % done:$running"
}

# Shows on a terminal how far it is, on one line that is written over.
show_progress() {
    local text width
    [ -t 2 ] || return
    width=$(stty size <&2 2>/dev/null)
    width=${width#* }
    text="scott: $(progress)"
    printf '\r%s\033[K' "${text:0:$((${width:-80} - 1))}" >&2
}

clear_progress() {
    [ ! -t 2 ] || printf '\r\033[K' >&2
}

# Runs the gate in the copy, in a group of processes of its own, so that it can be ended whole.
run_gate() {
    set -m
    (cd "$workshop" && TMPDIR=$spare exec rt ci) </dev/null >>"$folder/log" 2>&1 9>&- &
    set +m
    prover=$!
    while kill -0 "$prover" 2>/dev/null; do
        show_progress
        sleep 0.5
    done
    wait "$prover"
}

# Ends what is still running, and takes away what it has made.
stop() {
    [ -z "$prover" ] || kill -- "-$prover" 2>/dev/null
    [ -z "$prover" ] || wait "$prover" 2>/dev/null
    clear_progress
    remove_workshop
}

# Puts the program that the gate has built into its folder, without what only a debugger reads of it.
put_built() {
    local made=$folder/scott.$$
    cp "$workshop/crates/$program_crate/out/$program_crate" "$made" || return
    strip "$made" 2>/dev/null
    starts "$made" && put "$made" "$folder" && rt version >"$folder/toolchain"
}

# Proves and builds the program, and keeps it with the sums of what it was built from, as they were at the beginning.
build() {
    look_at_sources
    count_lines
    say_plan || return
    : >"$folder/log"
    trap 'stop; exit 130' INT
    trap 'stop; exit 143' TERM HUP
    if ! { make_workshop && run_gate; }; then
        stop
        tail -n 20 "$folder/log" >&2
        say "the program could not be proved or built; $folder/log has the whole"
        return 1
    fi
    trap - INT TERM HUP
    clear_progress
    if ! put_built; then
        say "the program is built, and does not start: $why"
        return 1
    fi
    remove_workshop
}

# Whether the toolchain is there.
find_toolchain() {
    local wanted=
    ! command -v rt >/dev/null || return 0
    wanted=$(cat "$top/program/toolchain" 2>/dev/null)
    say "the program has to be proved and built, and the toolchain is not there: the command 'rt'" \
        "${wanted:+(of $wanted) }is looked for in the folders of PATH, $PATH"
    return 1
}

# Finds where the program can be built.
find_folder() {
    for folder in "$build" "$own"; do
        ! is_usable "$folder" || return 0
    done
    say "the program has to be proved and built, and it can be written and started neither in $build nor in $own"
    return 1
}

# Builds the program, after another start that does so too; with the word 'anew' whether or not it is there.
build_program() {
    find_toolchain || exit 127
    find_folder || exit 126
    exec 9>"$folder/lock"
    if ! flock -n 9; then
        say "another start is building the program; this one waits for it"
        flock 9
    fi
    if [ "${1:-}" = anew ] || ! is_fresh "$folder"; then
        build || exit 126
    fi
    program=$folder/scott
    exec 9>&-
}
