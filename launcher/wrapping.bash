# How what the program says is shown on a terminal: lines are broken between words where the terminal ends, and what
# is typed stays where it is. terminal.bash reads this file. It needs bash and stty alone.
#
# A text is shown when its line ends, or when nothing more is said for a moment, so that a prompt is there at once.
# If the program waits by then it is for a line of input: when it goes on that was typed, and its end has put the
# terminal to the beginning of a line.

# How long nothing is said before what was said is shown, in seconds.
moment=0.01

# How wide the terminal is, whether that has changed, and how much of the current line is shown.
width=
resized=
column=0

# Words that may not be whole yet, the blanks before the next word, and what is to be shown next.
part=
blanks=
shown=

# Asks the terminal for its width. One that doesn't know it, and SCOTT_WRAP=no, have lines of any width.
find_width() {
    local size=
    resized=
    [ "${SCOTT_WRAP:-}" = no ] || { size=$(stty size <&3 2>/dev/null); } 3>&1
    width=${size#* }
    [ "${width:-0}" -gt 0 ] || width=1000000
}

# How many places of a line a text takes, in `places`. Bytes that don't move the terminal on are not counted, nor are
# all but the first of a letter.
count_places() {
    local seen=${1//$'\t'/        }
    seen=${seen//[$'\x01'-$'\x1f'$'\x7f'-$'\xbf']/}
    places=${#seen}
}

# Adds what fits of a text, with the blanks before it, to what is to be shown, up to the last blank where that can be,
# and leaves the rest in `text`. A word that is longer than a line is added whole, and the terminal breaks it.
add_line() {
    local room=$((width - column - ${#blanks})) line=
    [ "$room" -lt 0 ] || line=${text:0:$((room + 1))}
    if [[ $line == *' '* ]]; then
        line=${line% *}
    elif [ -n "$blanks" ] && [ "$column" -gt 0 ]; then
        line= blanks=
    else
        line=${text%% *}
    fi
    text=${text:${#line}}
    text=${text#"${text%%[! ]*}"}
    shown+=$blanks${line%"${line##*[! ]}"}
    column=$((column + ${#blanks} + ${#line})) blanks=
}

# Adds words, and keeps the blanks after the last one.
add() {
    local text=$1 last=${1##*[! ]} places
    text=${text%"$last"}
    count_places "$text"
    while [ $((column + ${#blanks} + places)) -gt "$width" ] && [ -n "$text" ]; do
        add_line
        if [ -n "$text" ]; then
            shown+=$'\n'
            column=0
        fi
        count_places "$text"
    done
    [ "$column" -le "$width" ] || column=$((column % width))
    if [ -n "$text" ]; then
        shown+=$blanks$text
        column=$((column + ${#blanks} + places)) blanks=
    fi
    blanks+=$last
}

# Shows what was added.
show() {
    printf '%s' "$shown"
    shown=
}

# Shows all that is held back. Blanks past the end of the line are dropped.
flush() {
    add "$part"
    part=
    if [ $((column + ${#blanks})) -le "$width" ]; then
        shown+=$blanks
        column=$((column + ${#blanks}))
    fi
    blanks=
    show
}

end_line() {
    add "$part"
    shown+=$'\n'
    part= blanks=
    show
    column=0
    [ -z "$resized" ] || find_width
}

# Shows what is sure to be whole words.
show_words() {
    local word=${part##* }
    add "${part%"$word"}"
    part=$word
    show
}

# Whether a process waits, or is gone.
waits() {
    local state
    { read -r state </proc/"$1"/stat; } 2>/dev/null || return 0
    [[ ${state##*) } == S* ]]
}

# Waits for the next byte after all is shown; it stands in `part` then, where it ends no line. It begins a line where
# the program has waited while its line was open. Fails at the end of what is said.
await() {
    local byte status=200
    while [ "$column" -gt 0 ] && [ "$status" -gt 128 ] && ! waits "$1"; do
        IFS= read -r -t 0.1 -N 1 byte
        status=$?
    done
    if [ "$status" -gt 128 ]; then
        IFS= read -r -N 1 byte || return
        column=0
        status=0
        [ -z "$resized" ] || find_width
    fi
    if [ "$byte" = $'\n' ]; then
        end_line
    else
        part=$byte
    fi
    return "$status"
}

# Shows what a process says, whose number is the first line.
wrap() {
    local process text status
    trap '' INT
    trap 'resized=yes' WINCH
    find_width
    LC_ALL=C
    IFS= read -r process
    while await "$process"; do
        while [ -n "$part$blanks" ]; do
            IFS= read -r -t "$moment" text
            status=$?
            part+=$text
            if [ "$status" -eq 0 ]; then
                end_line
            elif [ -n "$text" ]; then
                show_words
            else
                flush
            fi
        done
    done
    [ "$column" -eq 0 ] || echo
}
