# The forms of the command line, with all settings and an example each, and what is no setting. terminal.bash reads
# this file, where somebody asks for help or the program answers its words with its usage.

say_forms() {
    cat >&2 <<'END'
scott: the forms, with examples for the folder that ./scott stands in; docs/GUIDE.md has the rest

  play F [draws=FILE | seed=N] [style=S] [from=P] [save=P]
                                                    plays the database F
      ./scott play games/lighthouse.dat seed=7 save=mine.pos
  check F                                           says what is in it, and what is suspicious
      ./scott check games/bequest.dat
  decompile F SOURCE                                writes a database as a text for people
      ./scott decompile games/hill.dat my.adv
  compile SOURCE F                                  writes such a text as a database
      ./scott compile my.adv my.dat
  translate F PROGRAM [style=S] [words=W]           writes a database as an Inform program
      ./scott translate games/hill.dat hill.inf style=y words=32
  run PROGRAM [draws=FILE | seed=N] [steps=N] [words=W]
      ./scott run games/inform/dice.inf seed=3 steps=5000 words=32
  demo N                                            plays the game of N, 8 to 120, runs its program,
                                                    and says how both ended
      ./scott demo 33
  hall F N                                          plays N games of F at once, 1 to 64
      ./scott hall games/hill.dat 2
  transfer F P PROGRAM [style=S] [words=W]          writes a database as an Inform program that begins
                                                    at the position P, which play has kept with save=
      ./scott transfer games/lighthouse.dat mine.pos rest.inf
  cover F [draws=FILE | seed=N] [style=S]           plays F, and then says which of its lines were tried
      ./scott cover games/lighthouse.dat <games/lighthouse.walk
  simplify PROGRAM SIMPLER [words=W]                writes a program as a simpler one that runs alike
      ./scott simplify games/inform/dice.inf dice.inf
  step PROGRAM at=ROUTINE | every=N [draws=FILE | seed=N] [steps=N] [words=W]
                                                    runs it, and shows its globals at each pause
      ./scott step games/inform/dice.inf at=double
  calls PROGRAM [draws=FILE | seed=N] [steps=N] [words=W]
                                                    runs a game's program, and then says which of its
                                                    lines were tried
      ./scott calls rest.inf seed=7 <games/lighthouse.walk

END
    local name
    for name in draws seed style from save steps words at every; do
        printf '  %-6s  %s\n' "$name=" "$(values_of "$name")" >&2
    done
    echo >&2
    echo '  Settings stand after the names of the files, in any order, each at most once.' >&2
}

# Says which program it is.
say_version() {
    local sum toolchain=$top/program/toolchain
    [ ! -e "${program%/*}/toolchain" ] || toolchain=${program%/*}/toolchain
    sum=$(sha256sum "$program")
    say "the program of the sum ${sum%% *}, built with $(cat "$toolchain" 2>/dev/null)"
}

# What a setting may be.
values_of() {
    case $1 in
        draws) echo 'the name of a file of draws, numbers from 1 to 100' ;;
        seed) echo 'a number from 0 to 18446744073709551615; without it, and without draws=, it is 1' ;;
        style) echo 'y (You), c (a count of the light), v (a spent lamp vanishes), yc, yv, cv or ycv' ;;
        from) echo 'the name of a file that has a position, from which the play goes on' ;;
        save) echo 'the name of a file, in which the position is kept where the play stops' ;;
        steps) echo 'a number from 1 to 1000000000000000000; without it 1000000000' ;;
        words) echo '16 or 32, the bits of a word; without it 16' ;;
        at) echo 'the name of a routine: the run pauses each time that it is entered' ;;
        every) echo 'a number of steps from 1 to 1000000000000000000, after which the run pauses each time' ;;
    esac
}

# Whether digits write a number from one bound to another, the second of 19 or 20 digits.
is_between() {
    local digits=$1
    [[ $digits =~ ^[0-9]+$ ]] || return
    while [[ $digits == 0?* ]]; do
        digits=${digits#0}
    done
    [[ $2 != 1 || $digits != 0 ]] && { [ "${#digits}" -lt "${#3}" ] || [[ ${#digits} -eq ${#3} && ! $digits > $3 ]]; }
}

# Whether a setting of this name may have this value.
may_be() {
    case $1 in
        draws | from | save | at) [ -n "$2" ] ;;
        seed) is_between "$2" 0 18446744073709551615 ;;
        style) [[ $2 =~ ^(y|c|v|yc|yv|cv|ycv)$ ]] ;;
        steps | every) is_between "$2" 1 1000000000000000000 ;;
        words) [[ $2 == 16 || $2 == 32 ]] ;;
    esac
}

# How many words a command takes before its settings, names of files all but the N of hall, and its settings.
form_of() {
    case $1 in
        check) echo 1 ;;
        play) echo 1 draws seed style from save ;;
        run | calls) echo 1 draws seed steps words ;;
        step) echo 1 at every draws seed steps words ;;
        compile | decompile) echo 2 ;;
        translate) echo 2 style words ;;
        hall) echo 2 ;;
        demo) echo 1 ;;
        transfer) echo 3 style words ;;
        cover) echo 1 draws seed style ;;
        simplify) echo 2 words ;;
        *) return 1 ;;
    esac
}

# What is wrong with a word that stands where a command takes its settings; the rest are the names of these.
fault_of() {
    local word=$1 command=$2 name=${1%%=*}
    shift 2
    if [[ $word != *=* || -z $(values_of "$name") ]]; then
        echo "is no setting"
    elif [[ " $* " != *" $name "* ]]; then
        echo "is no setting of $command"
    elif ! may_be "$name" "${word#*=}"; then
        echo "is no setting: $name= is $(values_of "$name")"
    fi
}

# Says what is wrong with words that are no request.
name_faults() {
    local command=$1 form fault word place seen=' '
    if ! form=$(form_of "$command"); then
        say "there is no command '$command'; ./scott --help lists them"
        return
    fi
    shift
    if [[ $command == hall && $# -lt 2 ]]; then
        say "hall takes the name of a file and a number of sessions; ./scott --help has an example"
        return
    elif [ "$#" -lt "${form%% *}" ]; then
        say "$command takes more names of files than that; ./scott --help has an example"
        return
    fi
    if [[ $command == demo ]] && ! is_between "$1" 8 120; then
        say "$1 is no number of a game: that is a number from 8 to 120"
    fi
    if [[ $command == hall ]] && ! is_between "$2" 1 64; then
        say "$2 is no number of sessions: that is a number from 1 to 64"
    fi
    shift "${form%% *}"
    for word in "$@"; do
        fault=$(fault_of "$word" "$command" ${form#?})
        place=${word%%=*}
        place=${place/seed/draws}
        place=${place/every/at}
        if [ -n "$fault" ]; then
            say "$word $fault"
        elif [[ $seen == *" $place "* ]]; then
            say "$word is one setting too many: the same is set before it"
        fi
        seen+="$place "
    done
    if [[ $command == step && $seen != *' at '* ]]; then
        say "step takes at= or every=, where it pauses; ./scott --help has an example"
    fi
}
