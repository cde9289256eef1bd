# Builds the second program and the plain C programs, and names them for the script that sources this file: into $BUILT, or else into target/.
# It is sourced from the repository's root, under 'set -e'. Each file is put in its place whole: several tests may build beside each other.
c_flags="-Wall -Wextra -Werror -std=c99"
built=${BUILT:-$PWD/target}
mkdir -p "$built/c"
gcc -O3 $c_flags benches/c/plain_replay.c benches/c/plain_store.c -o "$built/c/plain_replay.$$"
mv "$built/c/plain_replay.$$" "$built/c/plain_replay"
gcc -O3 $c_flags -fPIC -shared -Itools/src benches/c/plain_store.c tests/plain_fields.c -o "$built/c/libplain.so.$$"
mv "$built/c/libplain.so.$$" "$built/c/libplain.so"
export PLAIN_LIB_DIR=$built/c
export CARGO_TARGET_DIR=$built/reference
cargo build --quiet --offline --release --features plain --manifest-path reference/Cargo.toml
compare=$CARGO_TARGET_DIR/release/compare
replay_reference=$CARGO_TARGET_DIR/release/replay-reference
plain_replay=$built/c/plain_replay
