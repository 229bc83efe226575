# What the benchmarks share that build a program of their own. Read by them; not run by itself.

# These crates and all below them, a line each.
crates_below() { # CRATE..
    local name dep
    local -A seen=()
    local waiting=("$@")
    while [ ${#waiting[@]} -gt 0 ]; do
        name=${waiting[0]}
        waiting=("${waiting[@]:1}")
        [ -z "${seen[$name]-}" ] && [ -d "$top/crates/$name" ] || continue
        seen[$name]=yes
        echo "$name"
        for dep in $(sed -n "s/^$name: *//p" "$top/crates.txt"); do waiting+=("$dep"); done
    done
}

# Makes a repository of a program, with copies of these crates and of all below them, and with what was proved of them. (rt refuses links,
# and the gate allows .rt files in crates alone, so the program is kept under another ending.)
make_program() { # FOLDER SOURCE CRATE..
    local folder=$1 source=$2 crate name
    name=$(basename "$source" .rattle)
    shift 2
    mkdir -p "$folder/crates/$name/src"
    cp "$source" "$folder/crates/$name/src/main.rt"
    for crate in $(crates_below "$@"); do
        [ -d "$folder/crates/$crate" ] && continue
        tar -C "$top/crates" --exclude=out/incremental -c "$crate" | tar -C "$folder/crates" -x || return
        grep "^$crate:" "$top/crates.txt" >>"$folder/crates.txt"
    done
    echo "$name: $*" >>"$folder/crates.txt"
}
