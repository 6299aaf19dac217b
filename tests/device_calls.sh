#!/bin/sh
# Checks which system calls a store in a file makes, and in which order. `format` takes an exclusive lock on the
# file without waiting, writes zeros if the file grows, and syncs the file and its folder, however its path is
# written. Each write of the store is at its offset, and each sync is one of the file. The zeros are written in
# pieces and count as one write; after the first sync each write of the store is one system call. Needs strace,
# and the program that rt ci leaves.
set -u

top=$(CDPATH='' cd -- "$(dirname -- "$0")/.." && pwd -P) || exit 1
program=$top/crates/planner/out/planner
if ! command -v strace >/dev/null; then
    echo "skipped: device_calls, since strace is not there"
    exit 0
fi
if ! strace -o /dev/null true 2>/dev/null; then
    echo "skipped: device_calls, since strace may not trace here"
    exit 0
fi
if [ ! -x "$program" ]; then
    echo "device_calls: $program is not built: run rt ci, or ./planner once" >&2
    exit 1
fi
folder=$(mktemp -d) || exit 1
trap 'rm -rf -- "$folder"' EXIT
trap 'exit 130' INT
trap 'exit 143' TERM
store=$folder/new.store

# Prints the calls of the program with these arguments on the store and its folder, one per line, with the path
# that was opened for them.
calls_of() {
    strace -o "$folder/calls" -e trace=open,openat,flock,ftruncate,fsync,fdatasync,pwrite64,pread64,write,read \
        "$program" "$@" >"$folder/answers" || exit 1
    awk -v folder="$folder" '
        function tell_writes() {
            if (written) print "pwrite64 " written " at " first " file"
            written = 0
        }
        /^open/ {
            name = index($0, "\"" folder "/new.store\"") ? "file" : index($0, "\"" folder "\"") ? "folder" : ""
            if (name == "") next
            tell_writes()
            kind[$NF] = name
            print "open " name
            next
        }
        {
            call = substr($0, 1, index($0, "(") - 1)
            rest = substr($0, index($0, "(") + 1)
            split(rest, words, /[,)]/)
            if (!(words[1] in kind)) next
            if (call ~ /^p/) {
                match($0, /, [0-9]+, [0-9]+\) += /)
                split(substr($0, RSTART + 2), numbers, /[,)] */)
                if (call == "pwrite64") {
                    if (written && (synced || numbers[2] != first + written)) tell_writes()
                    if (!written) first = numbers[2]
                    written += numbers[1]
                    next
                }
                call = call " " numbers[1] " at " numbers[2]
            } else if (call == "ftruncate" || call == "flock") call = call words[2]
            if (call ~ /sync$/) synced = 1
            tell_writes()
            print call " " kind[words[1]]
        }
        END { tell_writes() }' "$folder/calls"
}

# The calls that the store table in docs/FORMATS.md means for `format`, and then for a load and a build over the
# new store. Before that store is opened, its headers and records are read for integrity warnings, and
# everything once more for the steps to be repeated. Both are reported first.
cat >"$folder/wanted" <<'END'
open file
flock LOCK_EX|LOCK_NB file
pwrite64 4326400 at 0 file
fsync file
open folder
fsync folder
pwrite64 132096 at 0 file
fdatasync file
pwrite64 512 at 2229248 file
fdatasync file
pwrite64 512 at 512 file
fdatasync file
open file
flock LOCK_EX|LOCK_NB file
pread64 132096 at 0 file
pread64 132096 at 0 file
pread64 512 at 2229248 file
fdatasync file
pread64 132096 at 0 file
pread64 512 at 2229248 file
pwrite64 512 at 132096 file
fdatasync file
pwrite64 512 at 0 file
fdatasync file
pwrite64 512 at 1024 file
fdatasync file
END

instance=$top/examples/one-pair.txt
calls_of format "$store" >"$folder/got"
{
    echo "load lilim 0 $(wc -c <"$instance")"
    cat "$instance"
    echo build
} | calls_of run "$store" >>"$folder/got"

if ! diff "$folder/wanted" "$folder/got"; then
    echo "device_calls: the calls (>) are not those that are wanted (<)"
    exit 1
fi

# The number of search steps to be repeated is printed before the store is opened for them. Opening begins with
# a sync.
cp -- "$store" "$folder/steps.store" || exit 1
echo 'search 300' | "$program" run "$folder/steps.store" >"$folder/answers" || exit 1
strace -o "$folder/calls" -e trace=write,fdatasync "$program" run "$folder/steps.store" </dev/null >"$folder/answers" 2>/dev/null || exit 1
if ! awk '/^write\(2, "planner: repeating / { told = 1 } /^fdatasync/ { exit } END { exit !told }' "$folder/calls"; then
    echo "device_calls: the number of repeated steps is printed after the steps, not before"
    exit 1
fi

# Subcommands that only read a store share its lock, and write and sync nothing. The store is read once more for
# the steps, as above.
cat >"$folder/wanted" <<'END'
open file
flock LOCK_SH|LOCK_NB file
pread64 132096 at 0 file
pread64 512 at 132096 file
pread64 132096 at 0 file
pread64 512 at 132096 file
END
for word in timetable draw instance; do
    calls_of "$word" "$store" >"$folder/got"
    if ! diff "$folder/wanted" "$folder/got" || ! grep -q "openat(.*/new.store\", O_RDONLY" "$folder/calls"; then
        echo "device_calls: the calls of $word (>) are not those that are wanted (<), for reading alone"
        exit 1
    fi
done

# The folder is synced after the file.
mkdir -- "$folder/sub" || exit 1
for name in bare.store sub/new.store ./sub/../here.store "$folder/sub/last.store"; do
    (cd -- "$folder" && strace -o calls -e trace=open,openat,fsync "$program" format "$name" >answers) || exit 1
    synced=$(awk '/^open/ { path[$NF] = $0; sub(/^[^"]*"/, "", path[$NF]); sub(/".*/, "", path[$NF]) }
        /^fsync/ { file = substr($1, 7) + 0; print path[file] }' "$folder/calls")
    if [ "$synced" != "$(printf '%s\n%s\n' "$name" "$(dirname -- "$name")")" ]; then
        echo "device_calls: format $name syncs $synced"
        exit 1
    fi
done
echo "device_calls: the calls of the system are those of the store, in their order"
