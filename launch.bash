# What the launchers have in common. It is no command: each of them sources it, compare-events by itself, the others by list.bash. Needs `root`, the repository's
# folder, `name`, the launcher's name, which is that of its crate with - for _, and a function `usage`, which prints how it is called. Sets `program`, the built
# program.
crate="${name//-/_}"
program="$root/target/bin/$crate"

# How many crates of the repository are proved for the program: it and all below it (crates.txt).
crate_count() {
    awk -v program="$crate" '
        /^[a-z0-9_]+:/ { name = $1; sub(":", "", name); $1 = ""; uses[name] = $0 }
        function count(name, used, n, i, all) {
            if (!(name in uses) || seen[name]++) return 0
            n = split(uses[name], used, " ")
            for (i = 1; i <= n; i++) all += count(used[i])
            return all + 1
        }
        END { print count(program) }' "$root/crates.txt"
}

# Says of each crate that it is proved: on a terminal in one line that is written over, elsewhere in a line each. Takes what rt prints, of which it puts out the
# first error. (A crate that was proved before is not proved again: then the count ends below that of all.)
show_progress() {
    local proved=0 all line crate_shown='' error=none
    all="$(crate_count)"
    while IFS= read -r line; do
        if [[ $line =~ ^crate\ ([a-z0-9_]+):\  ]]; then
            crate_shown=${BASH_REMATCH[1]}
        elif [[ $line = logic=proved* ]]; then
            proved=$((proved + 1))
            line="$name: $proved of $all crates proved: $crate_shown"
            if [ -t 2 ]; then printf '\r%s\033[K' "$line" >&2; else printf '%s\n' "$line" >&2; fi
        elif [[ $error = none && ($line = error* || $line = *': error: '* || $line = logic=not-proved*) ]]; then
            error=shown
            printf '\n%s\n' "$line" >&2
        fi
    done
    if [ -t 2 ]; then printf '\r\033[K' >&2; fi
}

build() {
    local log="$root/target/$name.log" start="$root/target/$name.start"
    echo "$name: proving and building the program, once; it takes some minutes" >&2
    mkdir -p "$root/target" && : > "$start" || return 1
    "$root/tools/build" "$crate" < /dev/null 2>&1 | tee "$log" | show_progress
    if [ "${PIPESTATUS[0]}" -ne 0 ] || ! [ -x "$program" ]; then
        tail -n 1 "$log" >&2
        echo "$name: not built; the whole log is in $log" >&2
        return 1
    fi
    touch -r "$start" "$program"
}

# Prints the usage and ends, where $1 asks for it.
help_if_asked() {
    if [ "$1" = --help ] || [ "$1" = -h ]; then
        usage
        exit
    fi
}

# Proves and builds the program where it is not built, or older than its sources; ends with 1 where that fails.
build_if_stale() {
    if [ ! -x "$program" ] || [ -n "$(find "$root/crates" "$root/crates.txt" -name out -prune -o -newer "$program" -type f -print -quit)" ]; then
        build || exit 1
    fi
}

# Says that an input cannot be read.
say_unread() {
    echo "$name: cannot read $1" >&2
}

# Whether a file can be read; says so where it cannot.
readable() {
    if [ -d "$1" ] || ! [ -r "$1" ]; then
        say_unread "$1"
        return 1
    fi
}
