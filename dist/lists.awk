# Writes each of the lists that stand in a list of JSON, on a line of its own. It is run with bytes as its characters, and reads the list
# at its double quotes. The inner lists have no lists in them.
BEGIN {
    RS = "\""
    ORS = ""
}

NR > 1 {
    print "\""
}

inside {
    for (end = length($0); end > 0 && substr($0, end, 1) == "\\"; end--) continue
    inside = (length($0) - end) % 2
    print
    next
}

{
    if (NR == 1) sub(/^\[/, "")
    gsub(/\],\[/, "]\n[")
    sub(/\]\n?$/, "")
    print
    inside = 1
}
