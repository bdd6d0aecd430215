# The structs and exported functions of Rattle sources, as lines: `struct NAME`, its fields `NAME TYPE`, and `NAME(NAME TYPE, ..) TYPE`, with
# slices as the pointer and the length that they are in C.
function parameter(text,    parts, name, kind) {
    split(text, parts, ": ")
    name = parts[1] == "default" ? "fallback" : parts[1] # a word of C's own
    kind = parts[2]
    if (kind !~ /^&/) return name " " kind
    pointed = kind ~ /^&mut/ ? "*mut " : "*const "
    sub(/^&(mut )?\[/, "", kind)
    sub(/\]$/, "", kind)
    return name " " pointed kind ", " (name == "s" ? "length" : name "_length") " usize"
}

function show_function(text,    name, inside, result, parts, n, i, line) {
    name = text
    sub(/\(.*/, "", name)
    inside = text
    sub(/^[^(]*\( */, "", inside)
    sub(/,? *\) -> .*/, "", inside)
    result = text
    sub(/.*\) -> /, "", result)
    n = split(inside, parts, /, */)
    for (i = 1; i <= n; i++) line = line (i == 1 ? "" : ", ") parameter(parts[i])
    print name "(" line ") " result
}

/^#\[repr\(C\)\]/ { taken = 1; next }
taken && /^pub struct/ { print "struct " $3; inside_struct = 1; taken = 0; next }
inside_struct && /^}/ { inside_struct = 0; next }
inside_struct { line = $0; gsub(/^ *pub |,$/, "", line); sub(/: /, " ", line); print line; next }
/^pub extern "C" fn / { text = ""; reading = 1; sub(/^pub extern "C" fn /, "") }
reading { line = $0; gsub(/^ +/, "", line); text = text (text ~ /[(,]$/ ? " " : "") line }
reading && /\) -> / { sub(/ *$/, "", text); show_function(text); reading = 0 }
