# Writes rules for GNU make from crates.txt: each crate is a goal, behind those that it stands on; all of them are the goal
# `all`. What is done with a crate is said by VERB, as tools/gate/prove.sh takes it.
#
# usage: awk -f tools/gate/rules.awk crates.txt | make -f - -j 4 VERB=lib edfclaim

{ sub(/#.*/, "") }

match($0, /:/) {
    split(substr($0, 1, RSTART - 1), words, " ")
    names[++count] = words[1]
    libraries[words[1]] = substr($0, RSTART + 1)
}

END {
    for (i = 1; i <= count; i++) {
        every = every " " names[i]
        below = ""
        for (k = split(libraries[names[i]], all, " "); k > 0; k--) {
            if (all[k] in libraries) below = " " all[k] below
        }
        printf "%s:%s\n\t@tools/gate/prove.sh $(VERB) %s\n", names[i], below, names[i]
    }
    print "all:" every
    print ".PHONY: all" every
}
