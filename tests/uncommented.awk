# Every #define, enum, struct, enumerator, field and function of a header has a comment on its line or on the line before it, a line
# CUDDYSTOVE_LOOK between them aside. Says which has none, and exits with 1.
/^CUDDYSTOVE_LOOK$/ { next }
{
    code = $0
    own = sub(/[ \t]*\/\/ *[^- ].*$/, "", code) # a heading, // ----, is no comment
    alone = own && code == ""
    opens = code ~ /^(enum|struct) [a-z_0-9]+ \{/
    item = code ~ /^# *define / || opens || inside && code ~ /[A-Za-z]/ || code ~ /^[a-z].*cuddystove_[a-z_0-9]+ *\(/
    if (item) count++
    if (item && !own && !before) say("no comment")
    if (inside && (gsub(/CUDDYSTOVE_/, "&", code) > 1 || gsub(/;/, "&", code) > 1)) say("one to a line")
    if (opens) inside = 1
    if (code ~ /^\}/) inside = 0
    # What follows a comment at the end of a line goes on with it, and is of no other line.
    goes_on = own && !alone || alone && goes_on
    before = alone && !goes_on
}
function say(what) { print FILENAME ":" FNR ": " what ": " $0; bad = 1 }
END {
    if (count == 0) { print FILENAME ": nothing found"; bad = 1 }
    exit bad
}
