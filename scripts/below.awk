# awk -v top=NAME -f below.awk crates.txt: each crate of the repository on which the crate NAME stands, and NAME itself at the end. A line
# is 'CRATE|those on which it stands|its line in crates.txt'. Those with the longest chain of others above them come first, and so each
# comes after all on which it stands.

{
    sub(/#.*/, "")
    sub(/^[ \t]+/, "")
    gsub(/[ \t\r]+/, " ")
}

NF {
    at = index($0, ":")
    head = at ? substr($0, 1, at - 1) : $0
    split(head, words, " ")
    line[words[1]] = $0
    gsub(/,/, " ")
    named[words[1]] = at ? substr($0, at + 1) : ""
    listed[++crates] = words[1]
}

# Lifts the crate to that height at least, and those that it names above it.
function lift(crate, height, words, count, i) {
    if (height > crates) {
        fail("a crate stands on itself")
    }
    if (crate in height_of && height_of[crate] >= height) {
        return
    }
    height_of[crate] = height
    highest = height > highest ? height : highest
    count = split(named[crate], words, " ")
    for (i = 1; i <= count; i++) {
        if (words[i] in named) {
            lift(words[i], height + 1)
        }
    }
}

# Adds to `found`, a list in words, all on which the crate stands.
function reach(crate, found, words, count, i) {
    count = split(named[crate], words, " ")
    for (i = 1; i <= count; i++) {
        if (words[i] in named && !index(" " found " ", " " words[i] " ")) {
            found = reach(words[i], found (found == "" ? "" : " ") words[i])
        }
    }
    return found
}

function fail(why) {
    print "crates.txt: " why | "cat >&2"
    close("cat >&2")
    exit 1
}

END {
    if (!(top in named)) {
        fail("it has no line for " top)
    }
    lift(top, 0)
    for (height = highest; height >= 0; height--) {
        for (i = 1; i <= crates; i++) {
            if (listed[i] in height_of && height_of[listed[i]] == height) {
                print listed[i] "|" reach(listed[i], "") "|" line[listed[i]]
            }
        }
    }
}
