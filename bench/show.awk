# Prints a story of the bench for ./run: its comments as they stand, and each event with the line that `trace` prints of it and
# the columns that `watch` adds. Takes the names of three files: story, trace and watch. The line at which the story is bad,
# which ends the run, stands as `bad`. The story is gone through twice, first for the widths of the columns.

# Reads the next line of the story. What stands in front of a comment goes to `event`, the comment to `comment`.
function next_line(    at) {
    if ((getline text <story) <= 0) return 0
    at = index(text, "#")
    event = at ? substr(text, 1, at - 1) : text
    comment = at ? substr(text, at + 1) : ""
    gsub(/[ \t]+/, " ", event)
    sub(/^ /, "", event)
    sub(/ $/, "", event)
    sub(/^[ \t]+/, "", comment)
    return 1
}

# Reads what the programs print next: six columns of the trace, and in the watch the same six and two more.
function next_columns(    ours, theirs, word) {
    if ((getline ours <trace) <= 0 || (getline theirs <watch) <= 0) fail("the programs end before the story does")
    bad = ours == "bad" && theirs == "bad"
    if (bad) return
    if (index(theirs, ours " ") != 1 || split(theirs, column, " ") < 8) fail("trace and watch differ: " ours " and " theirs)
    signals = theirs
    for (word = 1; word <= 7; word++) signals = substr(signals, length(column[word]) + 2)
}

function fail(what) {
    print "run: " what >"/dev/stderr"
    exit 1
}

function measure(    place) {
    if (length(event) > widest_event) widest_event = length(event)
    if (bad) return
    for (place = 1; place <= 7; place++) if (length(column[place]) > width[place]) width[place] = length(column[place])
    if (length(signals) > widest_signals) widest_signals = length(signals)
}

# The form of a row, once the widths are known.
function form(    place, made) {
    made = "%-" widest_event "s  "
    for (place = 1; place <= 7; place++) made = made "%-" width[place] "s  "
    return made "%-" (widest_signals) "s  %s"
}

function print_row(    row) {
    if (bad) row = sprintf("%-" widest_event "s  bad  %s", event, comment)
    else row = sprintf(row_form, event, column[1], column[2], column[3], column[4], column[5], column[6], column[7], signals, comment)
    if (comment == "") sub(/ +$/, "", row)
    print row
}

function row() {
    next_columns()
    if (measuring) measure(); else print_row()
}

# The first row: the programs' own first lines.
function head(    kept_event, kept_comment) {
    kept_event = event
    kept_comment = comment
    event = "event"
    comment = ""
    row()
    event = kept_event
    comment = kept_comment
}

# Goes once through the story, up to its end or to the line that is bad.
function walk(    begun) {
    bad = 0
    while (!bad && next_line()) {
        if (event != "") {
            if (!begun++) head()
            row()
        } else if (!measuring) print text
    }
    if (!begun) head()
    close(story)
    close(trace)
    close(watch)
}

BEGIN {
    measuring = 1
    walk()
    measuring = 0
    row_form = form()
    walk()
}
