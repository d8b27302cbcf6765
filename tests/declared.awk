# What a C header declares of its library, a declaration a line: all that is left of it without comments, # lines, enums, the extern "C"
# around, the word for results that must be looked at, and the host's side: static inline functions and struct cuddystove_list.
{
    sub(/\/\/.*/, "")
    if (/^#/ || joined) { joined = /\\$/; next } # a macro may go on
    gsub(/CUDDYSTOVE_LOOK/, "")
    text = text " " $0
}
# The length of what stands in the braces at the start of s, with them.
function braced(s,    i, depth, sign) {
    for (i = 1; i <= length(s); i++) {
        sign = substr(s, i, 1)
        if (sign == "{") depth++
        if (sign == "}" && --depth == 0) return i
    }
    return length(s)
}
END {
    gsub(/[ \t]+/, " ", text)
    if (sub(/extern "C" \{/, "", text)) sub(/\} *$/, "", text)
    while (text !~ /^ *$/) {
        if (match(text, /^ *static inline [^;{}]*\{/)) {
            text = substr(text, RLENGTH)
            text = substr(text, braced(text) + 1)
            continue
        }
        if (!match(text, /^ *(struct|enum) [a-z_0-9]+ \{[^}]*\};/) && !match(text, /^[^;{}]*;/)) { print "unknown: " text; exit 1 }
        item = substr(text, 1, RLENGTH)
        text = substr(text, RLENGTH + 1)
        sub(/^ */, "", item)
        if (item !~ /^(enum [a-z_0-9]+|struct cuddystove_list) \{/) print item
    }
}
