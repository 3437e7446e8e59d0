# Sourced by the benchmarks, with their arguments. It sets `program`, the built program (by default crates/qcube/out/qcube), and
# goes to a new folder for the inputs. It can also build the plain program (bench/plain), offline by cargo, if Debian's packages
# of its crates are installed; otherwise its name is empty.
set -eu
top=$(cd "$(dirname "${BASH_SOURCE[0]}")/.." && pwd)
program=$(realpath "${1:-$top/crates/qcube/out/qcube}")
folder=$(mktemp -d)
trap 'rm -rf "$folder"' EXIT
export PYTHONPATH="$top/bench" PYTHONDONTWRITEBYTECODE=1

packages="librust-csv-dev librust-indexmap-dev librust-itoa-dev librust-smallvec-dev"

# Sets `plain` to the name of the plain program. It is empty if the program can't be built.
build_plain() {
    plain=
    local registry=/usr/share/cargo/registry crate
    command -v cargo > /dev/null || return 0
    for crate in csv-1 indexmap-1 itoa-1 smallvec-1; do
        compgen -G "$registry/$crate.*" > /dev/null || return 0
    done
    cargo build --quiet --jobs 1 --release --offline --manifest-path "$top/bench/plain/Cargo.toml" --target-dir "$folder/target" \
        --config 'source.crates-io.replace-with="debian"' --config "source.debian.directory=\"$registry\""
    plain="$folder/target/release/plain"
}

# The same, for a benchmark that needs the plain program.
need_plain() {
    build_plain
    [ -n "$plain" ] && return
    echo "the plain program needs cargo and Debian's packages of its crates: apt-get install $packages" >&2
    exit 1
}
cd "$folder"
