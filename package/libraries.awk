# Prints, from crates.txt, the rules by which make builds the libraries of the programs:
#     awk -v rt=COMMAND -f package/libraries.awk crates.txt
# bin/libraries/NAME is the mark of a library that is built, and NAME.txt there what was printed. The same as by rt alone, side
# by side.
function marks(crate,    all, count, i, text) {
    count = split(uses[crate], all, " ")
    for (i = 1; i <= count; i++)
        if (all[i] in uses)
            text = text " bin/libraries/" all[i]
    return text
}

function visit(crate,    all, count, i) {
    if (crate in seen)
        return
    seen[crate] = 1
    count = split(uses[crate], all, " ")
    for (i = 1; i <= count; i++)
        if (all[i] in uses)
            visit(all[i])
    if (crate != "flashback" && crate != "binlog")
        order[++libraries] = crate
}

/^[a-z]/ {
    crate = $1
    sub(":", "", crate)
    sub("[^:]*: *", "")
    uses[crate] = $0
}

END {
    visit("flashback")
    visit("binlog")
    printf "all:"
    for (i = 1; i <= libraries; i++)
        printf " bin/libraries/%s", order[i]
    print ""
    for (i = 1; i <= libraries; i++) {
        crate = order[i]
        folders = "crates/" crate "/src crates/" crate "/specs crates/" crate "/proofs"
        printf "bin/libraries/%s: $(shell find %s -type f 2> /dev/null)%s\n", crate, folders, marks(crate)
        printf "\t@echo \"Proving %s; the lines of rt go to $@.txt\"\n", crate
        printf "\t@cd crates/%s && %s lib > ../../$@.txt 2>&1 || { tail -n 20 ../../$@.txt; exit 1; }\n", crate, rt
        print "\t@touch $@"
    }
}
