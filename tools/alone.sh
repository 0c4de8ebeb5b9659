# Sourced by tools/build: `alone FILE` returns when no other build runs in this checkout, and none begins before
# this one ends. FILE is the lock. Where it has to wait it says so, by the caller's `say`.

# Waits for the lock.
alone() { # FILE
    if command -v flock >/dev/null; then by_flock "$1"; else by_folder "$1.d"; fi
}

# The line of one that waits.
say_waiting() { say 'another build runs in this checkout: waiting for its end'; }

# The kernel's lock, on an open file: it ends with the last process of the build, however that ends.
by_flock() { # FILE
    exec 9>>"$1"
    flock -n 9 || { say_waiting && flock 9; }
}

# Without flock: a folder that only one can make, with the number of the process that made it, which may have been
# killed.
by_folder() { # FOLDER
    local holder waits=
    until mkdir "$1" 2>/dev/null; do
        [ -n "$waits" ] || say_waiting
        waits=yes
        sleep 1
        holder=$(cat "$1/process" 2>/dev/null)
        if [ -n "$holder" ] && ! [ -e "/proc/$holder" ]; then rm -rf "$1"; fi
    done
    held=$1
    trap 'rm -rf "$held"' EXIT
    printf '%s\n' "$$" >"$1/process"
}
