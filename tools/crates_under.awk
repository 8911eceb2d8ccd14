# Prints the crate `top` and every crate under it, from the lines of crates.txt: awk -F: -f tools/crates_under.awk -v top=NAME crates.txt
# Before the colon other words may follow the name, as in 'capi staticlib: ..'.
/^[a-z]/ {
    split($1, head, " ")
    under[head[1]] = $2
}

function visit(name,    names, count, i) {
    if (!(name in under) || (name in seen)) {
        return
    }
    seen[name]
    print name
    count = split(under[name], names, " ")
    for (i = 1; i <= count; i++) {
        visit(names[i])
    }
}

END { visit(top) }
