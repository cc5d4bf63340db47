# shellcheck shell=bash
# Sourced by banklist-cases and bankcause-cases, with the program as an argument: runs it on banks made here and compares what it prints and what
# it says on standard error: a line a case, then the count (`counted`), which fails on any difference.
set -euo pipefail
program=${1:?usage: $0 PROGRAM}
dir=$(mktemp -d)
trap 'rm -rf "$dir"' EXIT

# A header, a record and a bank of 65,536 bytes, each field with the value that most cases have.
cat >"$dir/make.py" <<'END'
import struct, sys, zlib

SYSTEM = bytes.fromhex("40A0DDD277F84392B4A31E7304206516")
COMMON = bytes.fromhex("7C436110AB2A4BBBA880FE41995C9F82")

def header(size=65536, generation=5, sign=b"3VVN", version=1, reserved=0, system=8192, common=8192):
    return sign + struct.pack("<IIBBBBII", size, generation, 0, 0, version, reserved, system, common)

def record(key=b"rate", value=b"123456789", state=0x7F, guid=SYSTEM, start=0x55AA, reserved=0, closing=0, name=None, length=None, crc=None):
    name = len(key) + 1 if name is None else name
    length = len(value) if length is None else length
    crc = zlib.crc32(value) if crc is None else crc
    return struct.pack("<HBBIII", start, state, reserved, 0, name, length) + guid + struct.pack("<I", crc) + key + bytes([closing]) + value

def bank(*parts):
    return b"".join(parts).ljust(65536, b"\xff")

sys.stdout.buffer.write(eval(sys.argv[1]))
END

# A terminal as standard input.
cat >"$dir/terminal.py" <<'END'
import os, subprocess, sys

sys.exit(subprocess.run(sys.argv[1:], stdin=os.openpty()[1]).returncode)
END

count=0
wrong=0

# NAME, a file of what was to be written, one of what was, and whether all else was right.
judge() {
    count=$((count + 1))
    if [ "$4" = right ] && cmp -s "$2" "$3"; then
        echo "right: $1"
    else
        wrong=$((wrong + 1))
        echo "WRONG: $1"
        diff "$2" "$3" | head -6 || true
    fi
}

# NAME, the input as an expression, and on standard input what is to be printed. Nothing is said on standard error.
check() {
    local clean=
    cat >"$dir/want"
    python3 "$dir/make.py" "$2" >"$dir/in"
    "$program" <"$dir/in" >"$dir/got" 2>"$dir/said" && [ ! -s "$dir/said" ] && clean=right
    judge "$1" "$dir/want" "$dir/got" "$clean"
}

# NAME, what to run in place of the program alone, and on standard input what is to be said on standard error. Nothing is printed.
says() {
    local clean=
    cat >"$dir/want"
    program=$program dir=$dir bash -c "$2" </dev/null >"$dir/got" 2>"$dir/said" && [ ! -s "$dir/got" ] && clean=right
    judge "$1" "$dir/want" "$dir/said" "$clean"
}

# NAME, what it says where it is called otherwise, on standard input: no argument and no terminal, input and output that fail.
input_and_output() {
    local name=$1 usage
    usage=$(cat)
    says 'an argument' '"$program" bank.bin' <<<"$usage"
    says 'a terminal' 'python3 "$dir/terminal.py" "$program"' <<<"$usage"
    says 'a folder' '"$program" <"$dir"' <<<"$name: standard input: Is a directory"
    says 'no input' '"$program" <&-' <<<"$name: standard input: Bad file descriptor"
    says 'no room for the output' '"$program" >/dev/full' <<<"$name: standard output: No space left on device"
}

counted() {
    echo "$count cases, $wrong wrong"
    [ "$wrong" -eq 0 ]
}
