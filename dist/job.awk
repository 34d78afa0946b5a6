# Reads a job, which is one JSON object, and writes a part of it. It is run with bytes as its characters; the job is read at its double
# quotes. Its keys, and those of the objects at its keys, are looked at; of a key that stands twice the last value counts.
#
#     part=entries    a line for each key of the object at the key outer: the key and its value, as they stand, with a tab between them
#     part=text       the text that is the value of the key
#     part=value      the value of the key, as it stands
#     part=place      the byte of the job, from 0, that gives the byte offset of that text
#     part=key        the byte of the job at which the key stands
#
# The key, and the outer key whose object has it, are written as in JSON, without quotes; with no outer key it is the job's own.
BEGIN {
    RS = "\""
    part = ENVIRON["part"]
    outer = ENVIRON["outer"]
    key = decode(ENVIRON["key"])
    for (i = 1; i < 256; i++) byte_of[i] = sprintf("%c", i)
    key_place = -1
}

!inside {
    read_between($0)
    inside = 1
    quote = start + length($0)
    text = ""
}

inside == 2 {
    text = text $0
    for (end = length($0); end > 0 && substr($0, end, 1) == "\\"; end--) continue
    if ((length($0) - end) % 2) {
        text = text "\""
    } else {
        inside = 0
        name = text
        name_place = quote
        if (awaits) take("\"" text "\"", quote)
        awaits = 0
    }
}

{
    start += length($0) + 1
    if (inside == 1) inside = 2
}

END {
    if (part == "entries") for (i = 1; i <= entries; i++) print "\"" entry[i] "\"\t" value_of[entry[i]]
    else if (key_place < 0) exit 1
    else if (part == "key") print key_place
    else if (part == "value") print value
    else if (value !~ /^"/) exit 1
    else if (part == "text") printf "%s", decode(substr(value, 2, length(value) - 2))
    else {
        offset = ENVIRON["offset"]
        decode(substr(value, 2, length(value) - 2), offset + 1)
        print value_place + 1 + reached
    }
}

# What stands between two texts: brackets, colons, commas, and values that are no texts.
function read_between(piece,   i, c) {
    for (i = 1; i <= length(piece); i++) {
        c = substr(piece, i, 1)
        if (c ~ /[ \t\r\n]/) continue
        if (c == ":") {
            keys[depth] = name
            places[depth] = name_place
            awaits = 1
            plain = ""
        } else if (c == "{" || c == "[") {
            if (awaits) take(c, start + i - 1)
            awaits = 0
            kinds[++depth] = c
        } else if (c == "}" || c == "]" || c == ",") {
            if (awaits) take(plain, start + i - 1)
            awaits = 0
            if (c != ",") depth--
        } else {
            plain = plain c
        }
    }
}

# A value that stands behind a key.
function take(found, place) {
    if (depth == 1 && outer != "" && decode(keys[1]) == outer) {
        entries = 0
        split("", value_of)
        key_place = -1
    }
    if (depth > 2 || kinds[depth] != "{" || (outer == "") != (depth == 1) || (depth == 2 && decode(keys[1]) != outer)) return
    if (part == "entries") {
        if (!(keys[depth] in value_of)) entry[++entries] = keys[depth]
        value_of[keys[depth]] = found
    } else if (decode(keys[depth]) == key) {
        key_place = places[depth]
        value = found
        value_place = place
    }
}

# The bytes of a text as it stands in JSON; with a size, as many as that has, and reached is where the last of them begins.
function decode(raw, size,   all, some, i, step, c) {
    if (!size && raw !~ /\\/) return raw
    done = 0
    for (i = 1; i <= length(raw); i += step) {
        c = substr(raw, i, 1)
        step = 1
        if (c == "\\") {
            c = substr(raw, i + 1, 1)
            step = 2
            if (c == "u") {
                step = 6
                code = hex(substr(raw, i + 2, 4))
                if (code >= 55296 && code < 56320) {
                    step = 12
                    code = 65536 + (code - 55296) * 1024 + hex(substr(raw, i + 8, 4)) - 56320
                }
                c = utf8(code)
            } else if (c ~ /[bfnrt]/) {
                c = substr("\b\f\n\r\t", index("bfnrt", c), 1)
            }
        }
        reached = i - 1
        done += length(c)
        if (size && done >= size) return
        some = some c
        if (length(some) > 500) {
            all = all some
            some = ""
        }
    }
    reached = length(raw)
    return all some
}

function hex(digits,   i, number) {
    for (i = 1; i <= 4; i++) number = number * 16 + index("0123456789abcdef", tolower(substr(digits, i, 1))) - 1
    return number
}

# The UTF-8 form of a code point. A zero is written as a one, since not each awk holds it.
function utf8(code) {
    if (code < 128) return byte_of[code ? code : 1]
    if (code < 2048) return byte_of[192 + int(code / 64)] byte_of[128 + code % 64]
    if (code < 65536) return byte_of[224 + int(code / 4096)] byte_of[128 + int(code / 64) % 64] byte_of[128 + code % 64]
    return byte_of[240 + int(code / 262144)] byte_of[128 + int(code / 4096) % 64] byte_of[128 + int(code / 64) % 64] byte_of[128 + code % 64]
}
