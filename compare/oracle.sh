# Sourced by compare/run and bench/run, which set `here` to their own folder.
# Reads --oracle DIR and --built DIR off the command line, and finds or makes the two sides: the static library and the oracle.
#   --oracle DIR   the folder with the oracle's setup.sh, which is built once, into compare/target/oracle;
#                  default: ../shared/oracle, seen from the repository's root
#   --built DIR    a folder that setup.sh has built already
root=$(dirname "$here")
oracle=$root/../shared/oracle
built=$root/compare/target/oracle
while [ $# -gt 0 ]; do
    case $1 in
        --oracle) oracle=$2; shift 2 ;;
        --built) built=$(cd "$2" && pwd -P); shift 2 ;;
        *) break ;;
    esac
done
with=(--quiet --release --offline --jobs 1 --target-dir "$here/target")

# What the caller says of itself, then the options above.
usage() {
    sed -n '2,/^[^#]/s/^# //p' "$0"
    sed -n 's/^# \(  .*\)/\1/p' "${BASH_SOURCE[0]}"
}

need_library() {
    command -v cargo >/dev/null || { echo "cargo is not at hand, and this command is built with it" >&2; exit 2; }
    [ -f "${SANGVIREB_LIB:-$root/crates/exports/out}/libexports.a" ] || (cd "$root/crates/exports" && rt lib >&2)
}

# The oracle is the crate's own ssa.rs over the real cranelift, with a driver in front of it. It is not in this repository.
need_oracle() {
    if [ ! -x "$built/target/release/oracle-driver" ] && [ ! -x "$oracle/setup.sh" ]; then
        cat >&2 <<TEXT
The oracle is not at hand, and this command compares with it. It is a folder of its own with a script setup.sh, which builds the crate's ssa.rs
(cranelift-frontend 0.137.1) over cranelift-codegen 0.123.13 and its driver; it is handed out beside this repository and not with it.
  looked for: $oracle/setup.sh (--oracle DIR names another place), $built (--built DIR)
  without it: the gate replays the oracle's stored answers (rt ci), and compare/run walk, draw, hostile and memcheck need the library alone
TEXT
        exit 2
    fi
    [ -x "$built/target/release/oracle-driver" ] || "$oracle/setup.sh" "$built"
    local crates=$built/reg/usr/share/cargo/registry
    with+=(--config 'source.crates-io.replace-with="unpacked"' --config "source.unpacked.directory=\"$crates\"")
    with+=(--manifest-path "$here/Cargo.toml")
    export ORACLE_BUILT=$built
}
