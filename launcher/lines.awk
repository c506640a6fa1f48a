# The lines of a source's file at which the entries of its list of lines begin. Braces and words in texts and after '#'
# count for nothing.

# The next token of `rest`, which is taken from it: a word, a brace, or nothing to speak of.
function next_token(    token) {
    if (quoted) {
        if (!match(rest, /"/)) RLENGTH = length(rest)
        else {
            RLENGTH = RSTART
            quoted = 0
        }
    } else if (match(rest, /^[A-Za-z0-9_]+/) || match(rest, /^[{}]/)) token = substr(rest, 1, RLENGTH)
    else if (match(rest, /^#.*/)) token = ""
    else {
        quoted = substr(rest, 1, 1) == "\""
        RLENGTH = 1
    }
    rest = substr(rest, RLENGTH + 1)
    return token
}

{
    rest = $0
    while (rest != "") {
        token = next_token()
        if (token == "{") depth++
        else if (token == "}") depth--
        else if (depth == 0 && token != "") section = token
        else if (section == "lines" && depth == 1 && token ~ /^(line|auto|also)$/) print FNR
    }
}
