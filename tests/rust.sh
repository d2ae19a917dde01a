# For the scripts of tests/ and tools/: `. tests/rust.sh` from the top of the repository. Plain rustc, the standard
# library alone; what is built lies in target/rust.
RUSTC=${RUSTC:-$(command -v rustc || echo "${HOME:-}/.cargo/bin/rustc")} # as in tools/test
built=target/rust
mkdir -p "$built" || exit 2

rust() { "$RUSTC" -O --edition 2021 "$@"; }

# The oracle as a library, for the programs that compare with it.
oracle() { rust --crate-type rlib --crate-name oracle tests/oracle/lib.rs -o "$built/liboracle.rlib"; }

# A program that reads the tree as text, with its own tests (NAME-tests): its name, its source.
scanning() {
    rust --crate-type rlib --crate-name scan tests/scan/lib.rs -o "$built/libscan.rlib"
    rust --crate-name "$1" --extern scan="$built/libscan.rlib" "$2" -o "$built/$1"
    rust --test --crate-name "$1" --extern scan="$built/libscan.rlib" "$2" -o "$built/$1-tests"
}

# A program over the oracle and the compiled library, which tools/build makes: its name, its source.
linked() {
    tools/build || exit 1
    oracle
    rust --crate-name "$1" --extern oracle="$built/liboracle.rlib" "$2" -o "$built/$1" \
        -L native=target/lib -l static=muruapy
}
