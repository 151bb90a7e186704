# To be sourced at the root: builds the program that has the Rust beside the engine. Where the Rust's sources are not here, the test says that it was skipped.
if [ ! -e "${BUNLAYOG_RUST:-../shared/docs/src/src}/symbolic.rs" ]; then
  echo "skipped: the Rust's sources are not here, so $0 has compared nothing"
  exit 77
fi
. tests/parts/archive.sh
cargo build --offline --release --quiet --manifest-path compare/Cargo.toml --config compare/.cargo/config.toml
program=compare/target/release/bunlayog-compare
