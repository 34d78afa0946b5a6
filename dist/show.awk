# Finds a place in a text, and writes it as LINE:COLUMN, with that line and a caret below it.
#
#     offset=N or line=N     the place: a byte, from 0, or the first byte of a line that is no blank
#     utf8=1                 columns count characters of UTF-8; else bytes, and those beyond ASCII are shown as `?`
#
# It is run with bytes as its characters. A newline ends a line. What would steer a terminal is shown as `?`, and of a long line what is
# near the place.
BEGIN {
    utf8 = ENVIRON["utf8"]
    offset = ENVIRON["offset"] + 0
    wanted = ENVIRON["line"] + 0
    for (i = 1; i < 256; i++) number_of[sprintf("%c", i)] = i
}

{
    if (wanted ? NR == wanted : offset <= start + length($0)) {
        text = $0
        at = offset - start
        if (wanted) at = match(text, /[^ \t]/) ? RSTART - 1 : 0
        found = NR
        exit
    }
    start += length($0) + 1
}

END {
    if (!found) {
        found = NR + 1
        at = 0
    }
    sub(/\r$/, "", text)
    # Of a long line the characters far in front of the place are counted, and those far behind it not looked at.
    count = 0
    from = at > 1000 ? at - 600 : 1
    while (from > 1 && continues(from)) from--
    if (from > 1) for (i = 1; i < from; i++) if (!continues(i)) count++
    column = count
    for (i = from; i <= length(text) && i <= at + 1000; i += bytes) {
        take(i)
        count++
        shown[count] = glyph
        blank[count] = glyph == "\t" ? "\t" : substr("  ", 1, width)
        if (i <= at) column = count
    }
    column = at >= length(text) ? count + 1 : column + 1
    print found ":" column
    first = column > 80 ? column - 60 : 1
    last = count > first + 110 ? first + 100 : count
    above = first > 1 ? "    .. " : "    "
    below = first > 1 ? "       " : "    "
    for (i = first; i <= last; i++) {
        above = above shown[i]
        if (i < column) below = below blank[i]
    }
    print above (last < count ? " .." : "")
    print below "^"
}

# Sets glyph, bytes and width to how the character at a byte of the text is shown, how many bytes it has, and how many cells it takes.
function take(i,   first, size, k, byte, code) {
    glyph = substr(text, i, 1)
    first = number_of[glyph] + 0
    bytes = 1
    width = 1
    if (first < 128) {
        if (first < 32 && first != 9 || first == 127) glyph = "?"
        return
    }
    if (!utf8) {
        glyph = "?"
        return
    }
    size = first < 194 || first > 244 ? 0 : first < 224 ? 2 : first < 240 ? 3 : 4
    code = size == 2 ? first - 192 : size == 3 ? first - 224 : first - 240
    for (k = 1; k < size; k++) {
        byte = number_of[substr(text, i + k, 1)] + 0
        if (byte < 128 || byte > 191) size = 0
        code = code * 64 + byte - 128
    }
    if (size == 0) {
        glyph = "?"
        return
    }
    bytes = size
    glyph = substr(text, i, size)
    # Controls, and what turns the direction of writing.
    if (code < 160 || within(code, 8206, 8207) || within(code, 8232, 8238) || within(code, 8294, 8297)) glyph = "?"
    else if (within(code, 768, 879) || within(code, 8203, 8205) || within(code, 65024, 65039)) width = 0
    else if (within(code, 4352, 4447) || within(code, 11904, 12350) || within(code, 12352, 42191) || within(code, 44032, 55203) ||
        within(code, 63744, 64255) || within(code, 65040, 65049) || within(code, 65072, 65135) || within(code, 65281, 65376) ||
        within(code, 65504, 65510) || within(code, 127744, 129791) || within(code, 131072, 262141)) width = 2
}

# Whether a byte of the text is one inside of a character.
function continues(i,   byte) {
    byte = number_of[substr(text, i, 1)] + 0
    return utf8 && byte > 127 && byte < 192
}

function within(code, least, most) {
    return least <= code && code <= most
}
