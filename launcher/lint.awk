# What can't be reached in a game: the second file is the text of its database, and the first has the places of a
# source's lines, one a line, if it was one. docs/SOURCE.md says why such lines never run, docs/TURN.md has the rules.

BEGIN {
    words = rooms = messages = items = lines = lines_placed = found = 0
    refuses["carried"] = "not_carried"
    refuses["here"] = "not_here"
    refuses["near"] = "not_near"
    refuses["at"] = "not_at"
    refuses["flag_set"] = "flag_clear"
    refuses["some_carried"] = "none_carried"
    refuses["in_game"] = "out_of_game"
    refuses["at_start"] = "not_at_start"
}

FNR == NR && FILENAME ~ /places$/ { place[lines_placed++] = $1; next }

# An entry goes on to the next line inside a text.
{
    entry = held == "" ? $0 : held "\n" $0
    quotes = entry
    if (gsub(/"/, "", quotes) % 2) { held = entry; next }
    held = ""
}

entry ~ /^[a-z]+ \{$/ { section = $1; next }
entry == "}" { section = ""; next }
section == "header" { sub(/;$/, "", $2); header[$1] = $2 }
section == "words" { verb[words] = text_at(1); noun[words++] = text_at(2) }
section == "rooms" { room[rooms] = text_at(1); exits[rooms++] = after_text() }
section == "messages" { message[messages++] = text_at(1) }
section == "items" { item[items++] = text_at(1) }
section == "lines" { read_line() }

END {
    find_words()
    judge_lines()
    judge_messages()
    judge_rooms()
    judge_items()
    judge_treasures()
    printf "to look at %d\n", found
}

# The first or second text of the entry.
function text_at(which,    text, rest) {
    rest = entry
    while (which-- > 0) {
        match(rest, /"([^"]|"")*"/)
        text = substr(rest, RSTART + 1, RLENGTH - 2)
        rest = substr(rest, RSTART + RLENGTH)
    }
    gsub(/""/, "\"", text)
    return text
}

# What stands after the first text of the entry.
function after_text() {
    match(entry, /"([^"]|"")*"/)
    return substr(entry, RSTART + RLENGTH + 1)
}

# A text in quotes, so much of it that it is known, with no byte that moves a terminal.
function quote(text) {
    gsub(/[\001-\037\177]/, " ", text)
    return "\"" (length(text) > 40 ? substr(text, 1, 37) "..." : text) "\""
}

function say(text) {
    found++
    print text
}

# Reads a line: its verb and noun, the conditions that are no parameters, and the opcodes with what they take.
function read_line(    parts, head) {
    sub(/ "([^"]|"")*";$/, "", entry)
    split(entry, parts, /[{}]/)
    split(parts[1], head, " ")
    line_verb[lines] = head[1] == "line" ? head[2] : 0
    line_noun[lines] = head[1] == "line" ? head[3] : head[1] == "auto" ? head[2] : 0
    conditions[lines] = parts[2]
    opcodes[lines++] = parts[4]
}

# How a word is looked for: in capitals, as far as its letters count.
function key(word) {
    sub(/^\*/, "", word)
    return toupper(substr(word, 1, header["length"]))
}

# Which entry each word is found as: `names[column, key]`; which entries are found at all: `is_found[column, entry]`.
function find_words(    i) {
    for (i = 1; i < words; i++) {
        verb_base = verb[i] ~ /^\*/ ? verb_base : i
        noun_base = noun[i] ~ /^\*/ ? noun_base : i
        if (verb_base) find_word("noun", i, noun[i], noun_base)
    }
    verb_base = 0
    for (i = 1; i < words; i++) {
        verb_base = verb[i] ~ /^\*/ ? verb_base : i
        if (verb_base) find_word("verb", i, verb[i], verb_base)
    }
}

function find_word(column, i, word, base,    found_as) {
    if (word == "" || word == "*") return
    found_as = ("noun", key(word)) in names ? names["noun", key(word)] : 0
    if (column == "verb" && found_as >= 1 && found_as <= 6) {
        say("verb " i " " quote(word) " is never found: it is taken for the direction " quote(noun[found_as]))
    } else if (!((column, key(word)) in names)) {
        names[column, key(word)] = base
        is_found[column, base] = 1
    } else if (names[column, key(word)] != base) {
        found_as = names[column, key(word)]
        say(column " " i " " quote(word) " is never found: it is taken for " quote(column == "verb" ? verb[found_as] : noun[found_as]))
    }
}

# Why no command is a verb or a noun of a line, if none is.
function no_word(column, i, word) {
    if (i == 0 || (column, i) in is_found || column == "verb" && i == 1) return ""
    if (i >= words) return "there is no " column " " i
    if (word ~ /^\*/) return quote(word) " stands for the word above it"
    if (word == "") return column " " i " has no text"
    return quote(word) " is never found"
}

# Whether a list of conditions has one.
function has(list, condition) {
    return index(list, " " condition ";") > 0
}

# Why the conditions of a line can't all hold, if two of them say the opposite.
function opposite(list,    part, count, i, room_at) {
    count = split(list, part, ";")
    for (i = 1; i < count; i++) {
        sub(/^ /, "", part[i])
        split(part[i], word, " ")
        if (word[1] in refuses && has(list, refuses[word[1]] " " word[2])) return part[i] " and " refuses[word[1]]
        if (word[1] == "at" && room_at != "" && room_at != word[2]) return "two rooms"
        if (word[1] == "at") room_at = word[2]
    }
    return ""
}

# Whether a line holds wherever another does: each of its conditions is one of the other's.
function holds_with(mine, other,    part, count, i) {
    count = split(conditions[mine], part, ";")
    for (i = 1; i < count; i++) {
        sub(/^ /, "", part[i])
        if (part[i] !~ /^param / && !has(conditions[other], part[i])) return 0
    }
    return 1
}

# The earlier line that is always done in place of a line, if one is.
function hidden_by(k,    i) {
    if (!(line_verb[k] in first_of)) return ""
    for (i = first_of[line_verb[k]]; i != ""; i = next_of[i]) {
        if ((line_noun[i] == 0 || line_noun[i] == line_noun[k]) && runs[i] && holds_with(i, k)) return i
    }
    return ""
}

# A line in words.
function head_of(k) {
    if (line_verb[k] == 0) return line_noun[k] == 0 ? "also" : "auto " line_noun[k]
    return quote(verb[line_verb[k]]) " " (line_noun[k] == 0 ? "0" : quote(noun[line_noun[k]]))
}

function line_at(k) {
    return (k in place ? file ":" place[k] ": " : "") "line " k ", " head_of(k)
}

# Why a line with a verb never runs, if it doesn't.
function why_not(k,    why, other) {
    if (line_verb[k] == 1 && line_noun[k] >= 1 && line_noun[k] <= 6) return "a direction walks before any line is asked"
    why = no_word("verb", line_verb[k], verb[line_verb[k]])
    if (why == "") why = no_word("noun", line_noun[k], noun[line_noun[k]])
    if (why == "" && (other = hidden_by(k)) != "") why = "line " other ", " head_of(other) ", is done wherever it could be"
    return why
}

# Says which lines never run, and notes which do.
function judge_lines(    k, why, head) {
    head = ""
    for (k = 0; k < lines; k++) {
        why = opposite(conditions[k]) != "" ? "its conditions are opposite: " opposite(conditions[k]) : ""
        if (line_verb[k] != 0 || line_noun[k] != 0) {
            head = k
            if (line_verb[k] != 0 && why == "") why = why_not(k)
        } else if (conditions[k] == " " && opcodes[k] == " ") continue
        else if (head == "") why = "no other line stands before it"
        else if (!has(opcodes[head], "more")) why = "line " head ", above it, has no 'more'"
        else if (!runs[head]) why = "it goes with line " head
        runs[k] = why == ""
        if (why != "") say(line_at(k) ": never runs: " why)
        note_line(k)
    }
}

# Puts a line with a verb at the end of the list of its verb.
function note_line(k) {
    if (line_verb[k] == 0) return
    if (line_verb[k] in first_of) next_of[last_of[line_verb[k]]] = k
    else first_of[line_verb[k]] = k
    last_of[line_verb[k]] = k
}

function judge_messages(    k, i, part, count, said) {
    for (k = 0; k < lines; k++) {
        count = split(opcodes[k], part, ";")
        for (i = 1; i < count; i++) if (runs[k] && part[i] ~ /^ say m/) said[substr(part[i], 7)] = 1
    }
    for (i = 0; i < messages; i++) {
        if (!(i in said) && message[i] != "") say("message " i ", " quote(message[i]) ": said by no line that runs")
    }
}

# Rooms count as reached from the start by exits, and by each opcode of a line that runs: a saved room is room 0 at first.
function judge_rooms(    k, i, left, part, count, at, die) {
    left = header["start"]
    sub(/^r/, "", left)
    for (k = 0; k < lines; k++) if (runs[k]) {
        if (has(opcodes[k], "die")) left = left " " (rooms - 1)
        if (opcodes[k] ~ / swap_(saved|room)/) left = left " 0"
        left = left rooms_of(k)
    }
    while ((count = split(left, part, " ")) > 0) {
        left = ""
        for (i = 1; i <= count; i++) if (!(part[i] in reached)) {
            reached[part[i]] = 1
            left = left exits_of(part[i])
        }
    }
    for (i = 1; i < rooms; i++) if (!(i in reached)) say("room " i ", " quote(room[i]) ": nothing leads to it")
}

# The rooms to which a line may lead. Of a 'go' without brackets that is each number that a parameter has.
function rooms_of(k,    text, list) {
    text = opcodes[k]
    while (match(text, / go\(r?[0-9]+\)/)) {
        list = list " " substr(text, RSTART + 4, RLENGTH - 5)
        text = substr(text, RSTART + RLENGTH)
    }
    gsub(/r/, "", list)
    if (has(opcodes[k], "go")) {
        text = conditions[k]
        while (match(text, / param [0-9]+/)) {
            list = list " " substr(text, RSTART + 7, RLENGTH - 7)
            text = substr(text, RSTART + RLENGTH)
        }
    }
    return list
}

function exits_of(at,    text) {
    text = exits[at]
    gsub(/[^0-9 ]/, "", text)
    return " " text
}

# Says which items no word takes though they have one, and which no line names.
function judge_items(    i, k, named, parts, word, as) {
    for (k = 0; k < lines; k++) name_items(conditions[k] opcodes[k], named)
    for (i = 0; i < items; i++) {
        if (split(item[i], parts, "/") > 1 && parts[2] != "" && parts[2] !~ /^\*/) {
            as = ("noun", key(parts[2])) in names ? names["noun", key(parts[2])] : 0
            if (as == 0) say("item " i ", " quote(item[i]) ": its word is no noun")
            else if (key(noun[as]) != key(parts[2])) say("item " i ", " quote(item[i]) ": its word is another one for " quote(noun[as]) ", by which it has to be named")
        }
        if (!(i in named) && item[i] != "" && i != 9) say("item " i ", " quote(item[i]) ": named in no line")
    }
    if (items < 10 && is_darkened) say("a line makes it dark, and item 9, the lamp, is not there")
}

# Notes which items a line names, by itself or by a number that a parameter has.
function name_items(text, named,    word) {
    if (has(text, "darken")) is_darkened = 1
    while (match(text, /i[0-9]+|param [0-9]+/)) {
        word = substr(text, RSTART, RLENGTH)
        sub(/^(i|param )/, "", word)
        named[word] = 1
        text = substr(text, RSTART + RLENGTH)
    }
}

function judge_treasures(    i, count) {
    for (i = 0; i < items; i++) count += item[i] ~ /^\*/
    if (header["treasures"] != count + 0) say("the header has " header["treasures"] " treasures, and " count + 0 " items are treasures")
}
