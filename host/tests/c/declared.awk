# The structs and functions of the preprocessed headers (one statement a line), as exported.awk prints those of the source.
function kind(text) {
    gsub(/^ +| +$/, "", text)
    if (text == "double") return "f64"
    if (text == "_Bool") return "bool"
    if (text == "size_t") return "usize"
    if (text ~ /^u?int[0-9]+_t$/) { sub(/_t$/, "", text); sub(/^uint/, "u", text); sub(/^int/, "i", text); return text }
    sub(/^Dwg/, "", text)
    return text
}

# `NAME TYPE` of a declaration such as `const uint8_t *s` or `DwgGradientColor colors[16]`.
function declared(text,    name, items) {
    gsub(/^ +| +$/, "", text)
    name = text
    sub(/.*[ *]/, "", name)
    sub(/[A-Za-z0-9_]+(\[[0-9]+\])?$/, "", text)
    if (text ~ /\*/) {
        items = text ~ /^const / ? "*const " : "*mut "
        gsub(/const |\*/, "", text)
        return name " " items kind(text)
    }
    if (name ~ /\[/) {
        items = name
        sub(/\[.*/, "", name)
        gsub(/.*\[|\]/, "", items)
        return name " [" kind(text) "; " items "]"
    }
    return name " " kind(text)
}

function show_function(text,    head, inside, parts, n, i, line) {
    head = text
    sub(/ *\(.*/, "", head)
    inside = text
    gsub(/^[^(]*\(|\) *$/, "", inside)
    n = split(inside, parts, ",")
    for (i = 1; i <= n; i++) line = line (i == 1 ? "" : ", ") declared(parts[i])
    n = split(head, parts, " ")
    print parts[n] "(" line ") " kind(parts[1])
}

/^ *typedef struct Dwg/ { print "struct " kind($3); inside_struct = 1; next }
inside_struct && /^ *}/ { inside_struct = 0; next }
inside_struct { sub(/ *; *$/, ""); print declared($0); next }
/^ *Dwg[A-Za-z]+ dwg_.*\) *; *$/ { sub(/ *; *$/, ""); gsub(/^ +/, ""); show_function($0) }
