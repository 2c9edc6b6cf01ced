# Read by the other scripts: copies crates into a folder with one program, and builds and runs it for a processor.

# The processor that a build for this machine is for, or nothing where the kit has no name for what it can do.
processor() {
    local word
    for word in avx2 bmi1 bmi2 fma f16c movbe abm; do
        grep -qsw -m 1 "$word" /proc/cpuinfo || return 0
    done
    echo x86-64-v3
}

# laid NAME PROGRAM CRATE..: a folder with the crates, lowest first, and a program over all of them.
laid() {
    local name=$1 program=$2 crate
    shift 2
    mkdir -p "$folder/crates/$name/src"
    cp "$here/../HANDLES" "$folder/"
    for crate in "$@"; do
        cp -r "$here/../crates/$crate" "$folder/crates/$crate"
        grep "^$crate:" "$here/../crates.txt"
    done > "$folder/crates.txt"
    echo "$name: $* sha2" >> "$folder/crates.txt"
    cp "$program" "$folder/crates/$name/src/main.rt"
}

# ran NAME OUTPUT [PROCESSOR]: proves and builds the program, and runs it.
ran() {
    (cd "$folder/crates/$1" && rt run ${3:+--cpu="$3"} > "$2" 2> "$folder/log") || { tail -n 20 "$folder/log" >&2; exit 1; }
}
