# The closes that crates/closes computes, from Fields.antt, Runs.antt, Needed.antt
# and Worked.antt: a line for each call, with its case, its run, its answer and its
# bytes. A list of calls is of the case that the comment above it names in brackets.
# What comes before the list, and which steps after it with which answers, stand in
# the claims. In a list a call that is not answered 0 has its answer in a comment.

# The bytes of a step, as Take 2 1 1 0. No board is written in these runs.
function written(step,    word, count, at, named, bytes) {
    count = split(step, word, " ")
    for (at = 2; at <= count; at++) named[argument[word[1], at - 1]] = word[at]
    for (at = 1; at <= 5; at++) {
        bytes = bytes (field[word[1], at] in named ? named[field[word[1], at]] : field[word[1], at]) " "
    }
    return bytes "0 0 0 0 0 0 0 0"
}

function call(answer, bytes) {
    calls[list, ++count_of[list]] = answer " " bytes
}

# A step for each of n peers, of whom it says j, or whom it does not say.
function for_peers(n, step,    j, each) {
    if (step !~ / /) step = step " j"
    for (j = 1; j <= n; j++) {
        each = step
        gsub(/ j/, " " j, each)
        call(0, written(each))
    }
}

function fetch_and_hash(n, period,    j, k) {
    for (j = 1; j <= n; j++) {
        for (k = 1; k <= n; k++) {
            if (j != k) call(0, written("Fetch " j " " k " " period))
        }
    }
    for_peers(n, "SendHash j " period)
}

# The calls of a part of a list: a step that is written, no step, or several.
function add(part, answer,    word) {
    gsub(/[()]|λ j\. /, "", part)
    split(part, word, " ")
    if (sub(/^written /, "", part)) call(answer, written(part))
    else if (part == "no_step") call(5, no_step)
    else if (sub(/^for_peers [0-9]+ /, "", part)) for_peers(word[2], part)
    else fetch_and_hash(word[2], word[3])
}

# After two lists a step has this answer. Claims of one list follow each other.
function claim(before, list, step, answer) {
    if (!(list in case_of)) return
    if (!(list in before_of)) order[++runs] = list
    before_of[list] = before
    claims[list, ++claims_of[list]] = answer " " written(step)
}

# fields (Take j k p x) = of 4 j k p x 0
/^fields \(/ {
    gsub(/[()=]/, "")
    for (at = 3; $at != "of"; at++) argument[$2, at - 2] = $at
    for (place = 1; place <= 6; place++) field[$2, place] = $(at + place)
    next
}

/^$/ { list = ""; comment = "" }
/^-- / && match($0, /\([a-z0-9-]+\)/) { comment = substr($0, RSTART + 1, RLENGTH - 2) }
/^no_step = / {
    gsub(/no_step = | ∷ \[\]| ∷/, "")
    no_step = $0
}
/^abbrev pub [A-Za-z0-9_]+ : List \(List ℕ\)$/ {
    list = $3
    if (comment != "") case_of[list] = comment
    next
}

# E.answers (before ++ list) (written (Publish 2)) ≡ 12
/E\.answers \([A-Za-z0-9_]+ \+\+ [A-Za-z0-9_]+\) \(written / {
    sub(/.*E\.answers /, "")
    gsub(/[()]|written /, "")
    step = $4 " " $5
    claim($1, $3, step, $NF)
    next
}

# Ends (..) (..) before list (written (Publish 2)), of which the answer is 0
/ : Ends \(/ {
    sub(/.* : Ends \([^()]*\) \([^()]*\) /, "")
    gsub(/[()]/, "")
    claim($1, $2, $4 " " $5, 0)
    next
}

list != "" {
    answer = match($0, /-- [0-9]+(:|$)/) ? substr($0, RSTART + 3, RLENGTH - 3) + 0 : 0
    sub(/ *--.*/, "")
    while (match($0, /(written|for_peers [0-9]+) \([^()]*\)|no_step|(for_peers|fetch_and_hash) [0-9]+ [A-Za-z0-9_]+/)) {
        add(substr($0, RSTART, RLENGTH), answer)
        $0 = substr($0, RSTART + RLENGTH)
    }
}

END {
    for (run = 1; run <= runs; run++) {
        list = order[run]
        before = before_of[list]
        name = case_of[list] " " list
        for (at = 1; at <= count_of[before]; at++) print name, calls[before, at]
        for (at = 1; at <= count_of[list]; at++) print name, calls[list, at]
        for (at = 1; at <= claims_of[list]; at++) print name, claims[list, at]
    }
}
