# SPDX-License-Identifier: MIT OR Apache-2.0
# Says in words why a text is refused, and where. The script kat calls it with release/refusals.txt and the text. In the
# environment NAME is what the text is called, WORD the word of the refusal, and NUMBER its number or empty: the offset of
# the fault in bytes, or, where LINES is 1, a line of evidence or notes. COMMAND is the command.
# It prints NAME:LINE:COLUMN: WORD: .., the line, and a caret below the place, as compilers do. LINE and COLUMN count from 1,
# a column in characters. The locale is C, so that a character of awk is a byte.

# The token at the beginning of a text: letters, digits and bytes of other characters, two signs that belong together, or one.
function token_of(text) {
    # A byte order mark.
    if (text ~ /^\357\273\277/) return substr(text, 1, 3)
    if (match(text, /^[A-Za-z0-9_\200-\377]+/)) return substr(text, 1, RLENGTH)
    if (match(text, /^(&&|\|\||==|!=|<=|>=|:=)/)) return substr(text, 1, 2)
    return substr(text, 1, 1)
}

# The last token of a line without its comment.
function last_token(line,   token, found) {
    sub(/#.*/, "", line)
    for (;;) {
        sub(/^[ \t\r]+/, "", line)
        if (line == "") return found
        found = token_of(line)
        if (found in many) item = found
        line = substr(line, length(found) + 1)
    }
}

function characters(text) {
    gsub(/[\200-\277]/, "", text)
    return length(text)
}

# The hint for the token at a fault after the token before it.
function hint(before, token,   k) {
    if (token == "") return ""
    for (k = 1; k <= hints; k++)
        if (hint_of[k] == said && (before " " token) ~ ("^(" pattern[k] ")$")) return " " hint_text[k]
    return ""
}

function say(place, token) {
    printf "%s%s: %s:%s %s%s\n", name, place, said, (token == "" ? "" : " " token ":"), sentence[said], hint(before, token)
}

function show(line, start) {
    sub(/\r$/, "", line)
    # A long line is cut around the place.
    if (start > 80) {
        line = "..." substr(line, start - 60)
        start = 64
    }
    if (length(line) > 160) line = substr(line, 1, 157) "..."
    print "  " line
    line = substr(line, 1, start - 1)
    gsub(/[\200-\277]/, "", line)
    gsub(/[^\t]/, " ", line)
    print "  " line "^"
}

BEGIN {
    FS = "\t"
    name = ENVIRON["NAME"]; said = ENVIRON["WORD"]; number = ENVIRON["NUMBER"]; is_lines = ENVIRON["LINES"]
    command = ENVIRON["COMMAND"]
    lines = 0
    too_early = "The text ends too early."
}

# The table.
FILENAME == ARGV[1] {
    if (/^#/) next
    if ($1 == "hint") {
        hint_of[++hints] = $2; pattern[hints] = $3; hint_text[hints] = $4
    } else if ($1 == "many") {
        if (command != "flow") many[$2] = $3
    } else if (NF == 3) {
        sentence[$2] = $3; kind[$2] = $1
    }
    next
}

# The text, line by line, where the number is an offset.
number == "" || is_lines || kind[said] != "place" { exit }
{
    size = length($0)
    lines++
    if (number <= at + size) {
        rest = substr($0, number - at + 1)
        front = substr($0, 1, number - at)
        this = last_token(front)
        if (this != "") before = this
        token = rest == "" ? "" : token_of(rest)
        found = 1
        exit
    }
    this = last_token($0)
    if (this != "") before = this
    at += size + 1
}

END {
    if (!(said in sentence)) exit
    if (found) {
        if (said == "Syntax" && token == "") sentence[said] = too_early
        if (token in many) item = token
        if (said == "TooMany" && item != "") sentence[said] = many[item]
        say(":" lines ":" (characters(front) + 1), token)
        show($0, number - at + 1)
    } else if (number != "" && !is_lines && kind[said] == "place") {
        # After the last line feed of the text.
        if (said == "Syntax") sentence[said] = too_early
        say(":" (lines + 1) ":1", "")
    } else if (is_lines && number != "")
        say(":" number, "")
    else
        say("", "")
}
