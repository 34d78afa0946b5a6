# Writes an allowlist: of the members that were called, the classes and static fields that a script names, and the catalogue's lines of
# them, in its order. It is run with bytes as its characters over three files:
#
#     part=catalogue docs/CATALOGUE.md part=called MEMBERS part=script SCRIPT
BEGIN {
    FS = "`"
    word = "org.elasticsearch.painless.api.Augmentation"
}

part == "catalogue" && /^## / {
    section = $0
}

# The row of a class: its full name, and the one that scripts use.
part == "catalogue" && section == "## Classes" && /^\| [0-9]+ \| `/ {
    class[++classes] = $2
    full_name[$4] = $2
    name = $2
    gsub(/\$/, ".", name)
    full_name[name] = $2
}

part == "catalogue" && /^### / {
    holder = substr($0, 5)
}

# The row of a member: its line in an allowlist, kept by how a reply names it, and a field's by its name.
part == "catalogue" && section == "## Members" && /^\| [0-9]+ \| `/ {
    line = $2
    name = line
    sub(/\(.*/, "", name)
    sub(/.* /, "", name)
    arity = 0
    if (line ~ /\([^)]/) arity = gsub(/,/, ",", line) + 1
    if ($3 ~ /field/) named = holder "." name
    else if ($3 ~ /constructor/) {
        named = holder "/" arity
        sub(/^[^(]*/, "", line)
    } else named = holder "." name "/" arity
    if ($3 ~ /augmented/) sub(/ /, " " word " ", line)
    member[++members] = named
    line_of[named] = line
    holder_of[named] = holder
}

part == "called" {
    allow_member($0)
}

part == "script" {
    script = script $0 "\n"
}

END {
    script = without_texts(script)
    gsub(/[ \t\r\n]*\.[ \t\r\n]*/, ".", script)
    while (match(script, /[A-Za-z_][A-Za-z_0-9.]*/)) {
        before = substr(script, RSTART - 1, RSTART > 1)
        name = substr(script, RSTART, RLENGTH)
        script = substr(script, RSTART + RLENGTH)
        if (before !~ /[.0-9]/) allow_name(name)
    }
    for (i = 1; i <= classes; i++) {
        if (!(class[i] in allowed)) continue
        print "class " class[i] " {"
        for (k = 1; k <= members; k++) if (holder_of[member[k]] == class[i] && (member[k] in allowed)) print "  " line_of[member[k]]
        print "}"
    }
}

function allow_member(name) {
    if (!(name in line_of)) return
    allowed[name] = 1
    allowed[holder_of[name]] = 1
}

# The longest front of a dotted name that names a class, and the field behind it.
function allow_name(name,   front, rest) {
    front = name
    rest = ""
    while (!(front in full_name)) {
        if (!match(front, /\.[^.]*$/)) return
        rest = substr(front, RSTART)
        front = substr(front, 1, RSTART - 1)
    }
    allowed[full_name[front]] = 1
    if (match(rest, /^\.[^.]*/)) allow_member(full_name[front] substr(rest, 1, RLENGTH))
}

# A script with a blank for each comment, and an empty text for each text.
function without_texts(script,   kept) {
    while (match(script, /['"]|\/\/|\/\*/)) {
        kept = kept substr(script, 1, RSTART - 1) " "
        mark = substr(script, RSTART, RLENGTH)
        script = substr(script, RSTART + RLENGTH)
        if (mark == "//") match(script, /\n|$/)
        else if (mark == "/*") match(script, /\*\//)
        else if (mark == "'") match(script, /^([^'\\]|\\.|\\\n)*'/)
        else match(script, /^([^"\\]|\\.|\\\n)*"/)
        if (mark ~ /['"]/) kept = kept "''"
        script = substr(script, RSTART + RLENGTH)
    }
    return kept script
}
