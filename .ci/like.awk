# Ends with 0 where the second file is as the first tells: a line .. of the first stands for any lines of
# the second, also none, and * in a line for any text.

# Whether a line is as it is told.
function fits(line, told,    count, part, k, at) {
    count = split(told, part, /[*]/)
    if (count < 2) return line "" == told ""
    if (substr(line, 1, length(part[1])) != part[1]) return 0
    line = substr(line, length(part[1]) + 1)
    for (k = 2; k < count; k++) {
        at = index(line, part[k])
        if (at == 0) return 0
        line = substr(line, at + length(part[k]))
    }
    at = length(line) - length(part[count]) + 1
    return at >= 1 && substr(line, at) == part[count]
}

# Whether the told lines from first to last stand in the text from the place at.
function stands(first, last, at,    k) {
    for (k = first; k <= last; k++)
        if (!fits(text[at + k - first], told[k])) return 0
    return 1
}

FILENAME == ARGV[1] { told[++wanted] = $0 }
FILENAME == ARGV[2] { text[++many] = $0 }

END {
    at = 1
    gap = 0
    for (first = 1; first <= wanted; first = last + 1) {
        if (told[first] == "..") {
            gap = 1
            last = first
            continue
        }
        last = first
        while (last < wanted && told[last + 1] != "..") last++
        if (gap && last == wanted) at = many - (last - first) > at ? many - (last - first) : at
        while (gap && at + last - first < many && !stands(first, last, at)) at++
        if (at + last - first > many || !stands(first, last, at)) exit 1
        at += last - first + 1
        gap = 0
    }
    exit !(gap || at == many + 1)
}
