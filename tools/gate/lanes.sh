#!/bin/sh
# Prints how many proofs may run side by side: one for each processor that may be used and for each
# 5 GB of free memory, whichever are fewer, and at least one. Where RT_JOBS is set, that number.
#
# usage: tools/gate/lanes.sh
set -u

case ${RT_JOBS:-} in
'' | *[!0-9]* | 0) ;;
*)
    echo "$RT_JOBS"
    exit 0
    ;;
esac

# The lesser of two numbers.
lesser() {
    if [ "$1" -lt "$2" ]; then echo "$1"; else echo "$2"; fi
}

cores=$(nproc 2>/dev/null || echo 1)
group=/sys/fs/cgroup
if [ -r "$group/cpu.max" ]; then
    read -r quota period <"$group/cpu.max"
    case $quota in
    '' | *[!0-9]*) ;;
    *) cores=$(lesser "$cores" $((quota / period))) ;;
    esac
fi

# in units of 1024 bytes
free=$(sed -n 's/^MemAvailable: *\([0-9]*\) kB$/\1/p' /proc/meminfo 2>/dev/null)
if [ -r "$group/memory.max" ] && [ -r "$group/memory.current" ]; then
    read -r most <"$group/memory.max"
    read -r held <"$group/memory.current"
    case $most in
    '' | *[!0-9]*) ;;
    *) free=$(lesser "${free:-0}" $(((most - held) / 1024))) ;;
    esac
fi

lanes=$(lesser "$cores" $((${free:-0} / 5000000)))
if [ "$lanes" -lt 1 ]; then lanes=1; fi
echo "$lanes"
