# What the scripts of this repository share. Read by them; not run by itself.

# The folder of the repository, whose scripts may be called from anywhere.
top=$(cd "$(dirname "${BASH_SOURCE[0]}")/.." && pwd -P)
released=$top/release
built=$top/.build

# The lines of crates.txt of jtap and of all crates of this repository below it, in the order of their names.
linked_lines() {
    sed 's/#.*//' "$top/crates.txt" | awk -F: '
        NF > 1 { split($1, words, " "); below[words[1]] = $2; line[words[1]] = $0 }
        END {
            linked["jtap"]
            do {
                grown = 0
                for (name in linked) {
                    count = split(below[name], names, " ")
                    for (place = 1; place <= count; place++)
                        if (names[place] in below && !(names[place] in linked)) { linked[names[place]]; grown = 1 }
                }
            } while (grown)
            for (name in linked) print line[name]
        }' | LC_ALL=C sort
}

# The digest of what a program's bytes come from, built by the toolchain with this line: the files in src/ of the crates that it links, and
# their lines of crates.txt. No definition, proof, test, wrong body or document changes it. The gate compares the program byte for byte, so
# it finds what this leaves out.
sources_digest() ( # TOOLCHAIN
    cd "$top" || exit
    {
        linked_lines
        linked_lines | while IFS=': ' read -r name _; do find "crates/$name/src" -type f -print0; done \
            | LC_ALL=C sort -z | xargs -0 sha256sum
        echo "$1"
    } | sha256sum | cut -d ' ' -f 1
)

# Whether the program of a folder is of the sources at hand: it is the one that was stamped there, with their digest.
is_of_sources() { # FOLDER
    [ -f "$1/sources.sha256" ] && [ -f "$1/toolchain" ] \
        && (cd "$1" && sha256sum --status --check jtap.sha256 2>/dev/null) \
        && [ "$(cat "$1/sources.sha256")" = "$(sources_digest "$(cat "$1/toolchain")")" ]
}

# Puts a program into a folder, and stamps it with the digest of its sources and the toolchain that built it.
stamp() { # PROGRAM FOLDER DIGEST TOOLCHAIN
    mkdir -p "$2"
    cp "$1" "$2/jtap.new"
    mv "$2/jtap.new" "$2/jtap"
    (cd "$2" && sha256sum jtap >jtap.sha256)
    echo "$3" >"$2/sources.sha256"
    echo "$4" >"$2/toolchain"
}

# Why the released program can't run here; nothing where it can.
why_unfit() {
    local machine
    machine="$(uname -s) $(uname -m)"
    if [ "$machine" != "Linux x86_64" ]; then
        echo "release/jtap is for Linux x86_64, not for $machine"
    elif ! "$released/jtap" --version >/dev/null 2>&1 </dev/null; then
        echo "release/jtap doesn't start on this machine"
    fi
}

# Tells which program a script tries, and of which sources it is, as far as a stamp tells.
tell_program() { # NAME PROGRAM
    local folder of="of sources that no stamp tells"
    for folder in "$built" "$released"; do
        if cmp -s "$2" "$folder/jtap"; then
            of="of other sources"
            if is_of_sources "$folder"; then
                of="of the sources at hand"
                break
            fi
        fi
    done
    echo "$1: ${2#"$top/"}, $of"
}
