# shellcheck shell=bash
# Sourced by the other scripts: where things are, how progress is shown, what must be at hand.
set -euo pipefail
cd "$(dirname "${BASH_SOURCE[0]}")/.."

# The folder of libfeqyondil.a, for the C programs and the Rust side to link.
export FEQYONDIL_LIB=$PWD/target/staticlib

say() { printf '== %s\n' "$*"; }
warn() { printf '\n!! %s\n\n' "$*"; }
fail() {
    printf '!! %s\n' "$*" >&2
    exit 1
}

# step WHAT COMMAND..: runs a long part, says what it is and how long it took.
step() {
    local what=$1 began=$SECONDS
    shift
    say "$what"
    "$@" || fail "$what: FAILED after $((SECONDS - began)) s"
    say "$what: done in $((SECONDS - began)) s"
}

need_kit() {
    local recorded here
    recorded=$(<rattle-kit.txt)
    command -v rt >/dev/null ||
        fail "missing: the Rattle kit; install $recorded and put its command rt on PATH"
    here=$(rt version)
    say "kit: $here"
    [ "$here" = "$recorded" ] || warn "ANOTHER KIT than $recorded, which rattle-kit.txt records"
}

# The C compiler, with the options that our programs are held to.
cc=${CC:-cc}
compile() { "$cc" -std=c99 -pedantic -Wall -Wextra -Werror -O2 "$@"; }

need_cc() { command -v "$cc" >/dev/null || fail "missing: a C compiler; install Debian's package gcc"; }
need_python() { command -v python3 >/dev/null || fail "missing: python3; install Debian's package python3"; }

# fenced LANGUAGE [N]: the first, or the Nth, block of docs/USING.md that is marked so.
fenced() {
    awk -v mark="\`\`\`$1" -v nth="${2:-1}" '/^```/ { on = 0; if ($0 == mark) on = ++seen == nth; next } on' docs/USING.md
}

# What the prover said of a crate, where that is not proved.
unproved() { [[ $1 == *logic=proved* && $1 != *not-proved* && $1 != *error* ]] || printf '%s' "$1"; }

# progress CRATES EDITS: of what rt prints, a line for each of so many crates and edits. What the prover says of a crate is shown only where
# the crate is not proved; target/log has all of it.
progress() {
    local crates=$1 edits=$2 proved=0 refused=0 said='' line
    mkdir -p target
    while IFS= read -r line; do
        if [[ $line =~ ^rt:\ ([a-z0-9_]+\ proved)$ ]]; then
            printf '%d of %d: %s\n' $((++proved)) "$crates" "${BASH_REMATCH[1]}"
        elif [[ $line =~ ^rt:\ (must-fail\ [^:]*:\ refused) ]]; then
            printf '%d of %d: %s\n' $((++refused)) "$edits" "${BASH_REMATCH[1]}"
        elif [[ $line =~ ^rt:\ .*:\ trying\ its\ must-fail\ edits ]]; then
            :
        elif [[ $line =~ ^rt:\  || $line =~ ^[0-9]+\ passed,\  ]]; then
            unproved "$said"
            printf '%s\n' "$line"
        else
            said+=$line$'\n'
            continue
        fi
        said=
    done < <(tee target/log)
    unproved "$said"
}

# proving CRATES EDITS COMMAND..: runs rt so; with V=1 shows all that it prints.
proving() {
    local crates=$1 edits=$2
    shift 2
    if [ "${V:-}" = 1 ]; then
        mkdir -p target
        "$@" 2>&1 | tee target/log
    else
        "$@" 2>&1 | progress "$crates" "$edits"
    fi
}

# How many crates there are to prove: all that crates.txt lists, or the one named and those below it.
crates_of() {
    local all
    all=$(sed -n 's/^\([a-z0-9_]*\)\( staticlib\)\?:.*/\1/p' crates.txt)
    if [ $# -eq 0 ]; then
        wc -w <<<"$all"
    else
        { sed -n "s/^$1\( staticlib\)\?: *//p" crates.txt | tr ' ' '\n'; echo "$1"; } | grep -cxF "$all"
    fi
}

# In a crate's folder, over what earlier checks of it and of the crates below left there. rt makes a program by running it, here on a line of input.
run_crate() { (cd "crates/$1" && rt run <<<'' >/dev/null); }
make_crate() { (cd "crates/$1" && rt lib); }

# target/bin/PROGRAM out of a proved program.
make_program() {
    mkdir -p target/bin
    proving "$(crates_of "$1")" 0 run_crate "$1" && cp "crates/$1/out/$1" target/bin/
}

build_program() { step "proving and building $1" make_program "$1"; }

# libfeqyondil.a out of the proved exports.
make_library() {
    mkdir -p "$FEQYONDIL_LIB"
    proving "$(crates_of exports)" 0 make_crate exports &&
        cp crates/exports/out/libexports.a "$FEQYONDIL_LIB/libfeqyondil.a"
}

build_library() { step "proving the exports and making their static library" make_library; }
