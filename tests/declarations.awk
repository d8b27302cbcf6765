# Rattle's exported functions and #[repr(C)] structs, a declaration a line: in C, in the words of include/cuddystove.h, or with
# -v rust=1 in Rust, in the words of rust/cuddystove/src/plain.rs.
function fail(what) { print "tests/declarations.awk: " what > "/dev/stderr"; print "unknown: " what }
function value(name, t) {
    if (rust) return name ": " t
    if (t == "u32") return "uint32_t " name
    if (t == "i32") return "int32_t " name
    if (t == "usize") return "size_t " name
    fail("type " t)
}
# A slice is a pointer and a length.
function parameter(name, t,    writes, element) {
    if (t !~ /^&(mut )?\[(u8|i32)\]$/) return value(name, t)
    writes = t ~ /^&mut/
    element = t ~ /u8/ ? "u8" : "i32"
    if (rust) return name ": *" (writes ? "mut " : "const ") element ", " name "_length: usize"
    return (writes ? "" : "const ") (element == "u8" ? "uint8_t" : "int32_t") " *" name ", size_t " name "_length"
}
# verdict::Verdict is struct cuddystove_verdict
function result(t) { sub(/.*::/, "", t); return rust ? t : "struct cuddystove_" tolower(t) }
function prototype(s,    name, list, count, item, i, text, pair) {
    sub(/^.* fn /, "", s)
    name = s; sub(/\(.*/, "", name)
    list = s; sub(/^[^(]*\(/, "", list); sub(/\) *->.*/, "", list)
    sub(/.*-> */, "", s); gsub(/ +$/, "", s)
    count = split(list, item, ",")
    for (i = 1; i <= count; i++) {
        gsub(/^ +| +$/, "", item[i])
        if (item[i] == "") continue
        split(item[i], pair, ": *")
        text = text (text == "" ? "" : ", ") parameter(pair[1], pair[2])
    }
    if (rust) print "fn " name "(" text ") -> " result(s) ";"
    else print result(s) " " name "(" text ");"
}
/^ *\/\// { next }
/^#\[repr\(C\)\]/ { repr = 1; next }
repr && /^pub struct / { structure = (rust ? "struct " : "") result($3) " {"; repr = 0; inside = 1; next }
inside && /^}/ { print structure (rust ? " }" : " };"); inside = 0; next }
inside { sub(/^ *pub /, ""); sub(/,.*/, ""); split($0, pair, ": *"); structure = structure " " value(pair[1], pair[2]) (rust ? "," : ";"); next }
/^pub extern "C" fn / { signature = ""; open = 1 }
open && /^ *(requires|ensures|ghost) / || open && /^{/ { prototype(signature); open = 0; next }
open { signature = signature " " $0 }
