# What the launchers list-events and list-archive-events have in common: all but their names and what they say of the stamp order. It is no command: each of them
# sources it. Needs `root` and `name`, as launch.bash does, and `stamps`, a sentence for the usage.
. "$root/launch.bash" || exit 1

usage() {
    cat << END
usage: ./$name [FILE..]

Lists the events of each file, each with a listing of its own, or those of standard input.

Reads     hexadecimal lines, one event a line: S or R and for each 16-bit word a space and 4 lower-case digits, or F and for each 32-bit longword a
          space and 8 digits. README.md, 'A file of your own', has a command that makes such a line from raw bytes.
Prints    for each line 'event', its number, and 'rows' with their count and then the rows (kind, unit, channel, datum), or 'refused' with the refusal
          number and 'place' with the index of the word. The last line counts the events that were accepted and those refused. It begins with 'end', or
          with 'cut' where the listing stopped at a line too long or at the most lines it takes; without it the listing is not whole.
          All numbers are in hexadecimal.
Stamps    $stamps
See       docs/REFUSALS.md for what each refusal means and what to do, docs/FORMATS.md for lines, rows and words, examples/events.txt for examples.

Exit status: 0, refused events or not; 1 if a file cannot be read, or the program cannot be proved and built.
END
}

# Lists each of the files, or standard input where there is none, once the program is built; ends with the exit status.
list_files() {
    local file status=0
    help_if_asked "$1"
    build_if_stale
    if [ $# -eq 0 ]; then
        exec "$program"
    fi
    for file in "$@"; do
        readable "$file" || { status=1; continue; }
        "$program" < "$file" || exit $?
    done
    exit $status
}
