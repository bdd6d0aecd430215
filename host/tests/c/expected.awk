# What host/examples/hatch.c must print of a hatch, made of an answer line of the protocol with doubles as {16 digits}, but for the paths,
# pattern lines and seeds; then the words and the numbers, one line each.
function double(name) { return "{" field[name] "}" }
function all(list,    parts, n, i, line) {
    n = list == "-" ? 0 : split(list, parts, ",")
    for (i = 1; i <= n; i++) line = line " " (length(parts[i]) == 16 ? "{" parts[i] "}" : parts[i])
    return line
}
$1 == "err" { printf "refusal %s at bits %s and %s\n", $2, $3, $4; next }
function padded(part) { return part[6] == 1 ? ", padded" : "" }
{
    for (i = 4; i <= NF; i++) { name = $i; sub(/=.*/, "", name); field[name] = substr($i, length(name) + 2) }
    split(field["ext"], ext, ",")
    split(field["name"], text, ":")
    split(field["gname"], other, ":")
    printf "read to bit %s: %s words, %s numbers\n", $2, field["nw"], field["nn"]
    printf "gradient: present %s, angle %s, %s colours\n", field["grad"], double("gangle"), field["gn"]
    printf "gradient's name: %s units of %s bits at bit %s%s\n", other[4], other[2], other[3], padded(other)
    printf "elevation %s, extrusion {%s} {%s} {%s}\n", double("elev"), ext[1], ext[2], ext[3]
    printf "name: %s units of %s bits at bit %s%s\n", text[4], text[2], text[3], padded(text)
    printf "solid %s, associative %s, style %s, type %s\n", field["solid"], field["assoc"], field["style"], field["type"]
    printf "pattern: angle %s, scale %s, double %s\n", double("pangle"), double("pscale"), field["pdouble"]
    printf "pixel size %s\n", double("pixel")
    printf "words:%s\n", all(field["words"])
    printf "numbers:%s\n", all(field["nums"])
}
