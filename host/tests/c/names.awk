# The names that host/examples/hatch.c must print of a hatch, made of an answer line of the protocol: its units as UTF-8, up to the first zero. Called with
# LC_ALL=C, so that %c is one byte.
function number(digits,    i, value) {
    for (i = 1; i <= length(digits); i++) value = 16 * value + index("0123456789abcdef", substr(digits, i, 1)) - 1
    return value + 0
}

function utf8(character) {
    if (character < 128) return sprintf("%c", character)
    if (character < 2048) return sprintf("%c%c", 192 + int(character / 64), 128 + character % 64)
    if (character < 65536) return sprintf("%c%c%c", 224 + int(character / 4096), 128 + int(character / 64) % 64, 128 + character % 64)
    return sprintf("%c%c%c%c", 240 + int(character / 262144), 128 + int(character / 4096) % 64, 128 + int(character / 64) % 64, 128 + character % 64)
}

function characters(text,    part, digits, units, unit, i, line) {
    split(text, part, ":")
    digits = part[2] / 4
    for (i = 0; i < part[4]; i++) {
        unit = number(substr(part[5], 1 + i * digits, digits))
        if (unit == 0) break
        if (digits == 2 && unit > 127) unit = 65533
        if (unit >= 55296 && unit < 56320) unit = 65536 + (unit - 55296) * 1024 + number(substr(part[5], 1 + ++i * digits, digits)) - 56320
        line = line utf8(unit)
    }
    return line
}

$1 == "ok" {
    for (i = 4; i <= NF; i++) { name = $i; sub(/=.*/, "", name); field[name] = substr($i, length(name) + 2) }
    printf "gradient's name \"%s\"\nname \"%s\"\n", characters(field["gname"]), characters(field["name"])
}
