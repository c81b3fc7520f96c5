# Read by the scripts beside it: the program, the folder for the texts, and how a command is timed.
set -e
program=$1
folder=$2
here=$(dirname "$0")
mkdir -p "$folder"

# the least processor time of so many runs of a command, in milliseconds, and the most memory in kilobytes
least() {
    runs=$1
    shift
    for _ in $(seq "$runs"); do
        /usr/bin/env time -f "%U %S %M" "$@" 2>&1 >/dev/null | tail -1
    done | awk '{ t = 1000 * ($1 + $2); if (NR == 1 || t < best) best = t; if ($3 > most) most = $3 } END { print best " ms, " most " KB at most" }'
}

# the same of the program with these words over a text
least_of() {
    runs=$1
    text=$2
    shift 2
    least "$runs" sh -c "exec \"$program\" $* <\"$text\""
}
