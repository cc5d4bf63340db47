# shellcheck shell=bash
# Sourced after common.sh by the scripts that compare with the Rust: what that needs, and how host/ is built.

# The Rust's sources, never a part of this repository.
NVRAM_RUST=$(realpath -m "${NVRAM_RUST:-../shared}")
export NVRAM_RUST
# The Rust's crates, as Debian's packages lay them out.
DEBIAN_CRATES=${DEBIAN_CRATES:-/usr/share/cargo/registry}
# As host/Cargo.toml says.
OLDEST_RUST=1.70
# What the Rust and the judge are built with: each in Debian's package librust-NAME-dev. What proptest needs for std is a package of its own.
CRATES=(adler32 clap crc32fast indicatif proptest rand)
PACKAGES=("${CRATES[@]/%/-dev}" proptest+std-dev)
PACKAGES=("${PACKAGES[@]/#/librust-}")

has_papers() {
    local name
    for name in lib v1v2 v3; do
        [ -f "$NVRAM_RUST/src--apple-nvram--src--$name.rs.txt" ] || return 1
    done
}

has_cargo() { command -v cargo >/dev/null && command -v rustc >/dev/null; }
# quick-error comes with proptest's package for std.
has_crates() {
    local name
    for name in "${CRATES[@]}" quick-error; do
        compgen -G "$DEBIAN_CRATES/$name-[0-9]*" >/dev/null || return 1
    done
}

# What the comparison with the Rust lacks and how to get it, in one line; nothing if it is complete.
judge_lacks() {
    local version
    if ! has_papers; then
        echo "the Rust's sources; put shared/ beside the repository, or name their folder in NVRAM_RUST"
    elif ! has_cargo; then
        echo "cargo and rustc $OLDEST_RUST or later; install Debian's package cargo (Debian 12: cargo-web)"
    elif version=$(rustc --version | cut -d' ' -f2) &&
        ! printf '%s\n' "$OLDEST_RUST" "$version" | sort -VC; then
        echo "rustc $OLDEST_RUST or later, and this is $version; on Debian 12 install the package cargo-web"
    elif ! has_crates; then
        echo "crates that the Rust and the judge use; install Debian's packages ${PACKAGES[*]}"
    fi
}

# Debian 12's own cargo is too old for v3.rs; its newer one is called cargo-web.
cargo_package() {
    if apt-cache show cargo-web >/dev/null 2>&1; then echo cargo-web; else echo cargo; fi
}

install_packages() {
    apt-get update -qq || return 1
    local packages=("${PACKAGES[@]}")
    has_cargo || packages+=("$(cargo_package)")
    DEBIAN_FRONTEND=noninteractive apt-get install -qq -y --no-install-recommends "${packages[@]}" >/dev/null
}

# Installs what is missing where that is allowed; then `lacks` says what still is.
set_up_judge() {
    lacks=$(judge_lacks)
    if [ -n "$lacks" ] && has_papers && [ "$(id -u)" = 0 ] && command -v apt-get >/dev/null; then
        local began=$SECONDS
        say "installing Debian's packages"
        install_packages || say "installing Debian's packages: failed"
        say "installing Debian's packages: ended after $((SECONDS - began)) s"
        lacks=$(judge_lacks)
    fi
    [ -z "$lacks" ]
}

# cargo in host/, offline, with Debian's crates in place of the registry.
cargo_host() {
    local verb=$1
    shift
    (cd host && cargo "$verb" --offline --quiet --release \
        --config 'source.crates-io.replace-with="debian"' \
        --config "source.debian.directory=\"$DEBIAN_CRATES\"" "$@")
}

build_judge() { step "building the oracle and the judge" cargo_host build; }
