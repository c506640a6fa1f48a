# Where in a file the fault stands for which a request was refused: its line and column, and the line with a mark under
# the place, as compilers show it. terminal.bash reads this file.

# The most bytes that are shown before the place and after it.
around=300

# What is sure to be shown as one place of a line for each letter: no byte that moves the terminal.
shown() {
    local text
    text=$(tr '\011\000-\010\012-\037\177' ' ?')
    printf '%s' "${text//[^[:print:]]/?}"
}

# So many bytes of a file, after so many others.
bytes() {
    tail -c +$(($2 + 1)) "$1" 2>/dev/null | head -c "$3"
}

# Shows the place in a file that so many bytes stand before, with what is said of it.
show_bytes() {
    local file=$1 before=$2 text=$3 line column start from front rest width
    line=$(($(head -c "$before" "$file" | tr -cd '\n' | wc -c) + 1))
    column=$(($({ head -c "$before" "$file" && echo x; } | tail -n 1 | wc -c) - 1))
    start=$((before - column + 1))
    from=$((before - around))
    [ "$from" -ge "$start" ] || from=$start
    front=$(bytes "$file" "$from" $((before - from)) | shown; echo x)
    front=${front%x}
    rest=$(bytes "$file" "$before" "$around" | head -n 1 | tr -d '\r\n' | shown)
    width=$(stty size <&2 2>/dev/null)
    width=$((${width#* } - 6))
    [ "$width" -ge 20 ] || width=74
    if [ ${#front} -gt $((width * 2 / 3)) ]; then
        front="..${front: -$((width * 2 / 3 - 2))}"
    fi
    printf '%s:%s:%s: %s\n' "$(printf %s "$file" | shown)" "$line" "$column" "$(printf %s "$text" | shown)" >&2
    printf '    %s\n    %*s\n' "$front${rest:0:$((width - ${#front}))}" "$((${#front} + 1))" '^' >&2
}

# Shows the place of the number of a file that so many numbers stand before.
show_number() {
    local place
    place=$(LC_ALL=C grep -a -o -b -E '[+-]?[0-9]+' "$1" | sed -n "$(($2 + 1))p")
    [ -z "$place" ] || show_bytes "$1" "${place%%:*}" "$3"
}

# Shows the first negative number of an action of a database.
show_negative() {
    local first=$((12 + 8 * $2 + 1)) place
    place=$(LC_ALL=C grep -a -o -b -E '[+-]?[0-9]+' "$1" | sed -n "$first,$((first + 7))p" | grep -m 1 ':-')
    [ -z "$place" ] || show_bytes "$1" "${place%%:*}" "$3"
}

# Shows the first place of an Inform program where a name stands, whatever its capitals, outside texts and comments.
show_name() {
    local place
    place=$(LC_ALL=C awk -v name="$2" '
        BEGIN { name = tolower(name) }
        {
            rest = $0
            at = before
            while (rest != "") {
                if (quoted) token = match(rest, /^[^"]*"/) ? "" : "none"
                else if (match(rest, /^"/)) token = ""
                else if (match(rest, /^!.*/)) token = ""
                else if (match(rest, /^\047[^\047]*\047/)) token = ""
                else if (match(rest, /^[A-Za-z0-9_]+/)) token = substr(rest, 1, RLENGTH)
                else match(rest, /^./)
                if (token == "none") break
                if (substr(rest, RLENGTH, 1) == "\"") quoted = !quoted
                if (tolower(token) == name) { print at; exit }
                token = ""
                at += RLENGTH
                rest = substr(rest, RLENGTH + 1)
            }
            before += length($0) + 1
        }' "$1")
    [ -z "$place" ] || show_bytes "$1" "$place" "$3"
}

# Shows where a text that refuses a file says that the fault is.
show_fault() {
    local file=$1 text=$2 name
    case $text in
        *' at '*[0-9]) show_bytes "$file" "${text##* at }" "$text" ;;
        'highest item is '*) show_number "$file" 1 "$text" ;;
        'highest action is '*) show_number "$file" 2 "$text" ;;
        'highest word is '*) show_number "$file" 3 "$text" ;;
        'highest room is '*) show_number "$file" 4 "$text" ;;
        'start room '*) show_number "$file" 6 "$text" ;;
        'word length is '*) show_number "$file" 8 "$text" ;;
        'light time is '*) show_number "$file" 9 "$text" ;;
        'highest message is '*) show_number "$file" 10 "$text" ;;
        'action '*' has a negative number')
            name=${text#action }
            show_negative "$file" "${name%% *}" "$text"
            ;;
        'number '*' is too wide')
            name=${text#number }
            show_name "$file" "${name%% *}" "$text"
            ;;
        *) show_name "$file" "${text%% *}" "$text" ;;
    esac
}

# Shows the place of the fault for which the program refuses its words. It is asked once more what it says: where it
# refuses, it changes no file and takes no line. Of a file that can be read once alone nothing is shown.
show_place() {
    local said name word files=("${2:-}")
    for word in "${@:3}"; do
        [[ $word != draws=* ]] || files+=("${word#draws=}")
    done
    for name in "${files[@]}"; do
        [ -f "$name" ] || return
    done
    said=$("$program" "$@" 2>/dev/null)
    for name in "${files[@]}"; do
        if [[ $said == "$name: "* && $said != *$'\n'* ]]; then
            show_fault "$name" "${said#"$name: "}"
            return
        fi
    done
}
