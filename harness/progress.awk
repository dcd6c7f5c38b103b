# Says how far a proof has come: reads crates.txt, then what `rt lib` prints in crates/moonbleat_c, and
# numbers each crate as it is proved. What each function of a proved crate gives is left out, and so is
# a crate that was proved before, of which rt says nothing.

# crates.txt: NAME: DEPENDENCIES  # comment, or NAME staticlib: DEPENDENCIES
FNR == NR {
    sub(/#.*/, "")
    if (split($0, line, ":") == 2) {
        sub(/ .*/, "", line[1])
        needs[line[1]] = line[2]
    }
    next
}

# All crates that one stands on, and itself, in the order in which rt proves them.
function reach(name,    list, count, i) {
    if (name in needs && !(name in reached)) {
        reached[name] = 1
        count = split(needs[name], list, " ")
        for (i = 1; i <= count; i++) {
            reach(list[i])
        }
        place[name] = ++crates
    }
}

function numbered(name) {
    if (crates == 0) {
        reach("moonbleat_c")
    }
    return "crate " place[name] " of " crates ": " name
}

/^rt: chose --jobs [0-9]+ for / {
    crate = $NF
    next
}

/^logic=(not-)?proved/ {
    print numbered(crate), $1 == "logic=proved" ? "proved" : "NOT PROVED"
    fflush()
    next
}

/^[a-z]+ [^ ]+: proved$/ || /^(logic|library|statements|crate|axioms|checked) / || /^only=0 / || /^rt: [a-z_]+: begins with / {
    next
}

{
    print
    fflush()
}
