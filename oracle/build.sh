#!/bin/sh
# The given Rust, unchanged, with small stand-ins for the crates that it leans on: plain rustc calls, no cargo and no registry.
#   oracle/build.sh RUST OUT [ARCHIVE [REAL]]    RUST: the folder that holds nearest_neighbor.rs, registration.rs and filtering.rs
#   ARCHIVE: the proved library (target/staticlib/libcapi.a); without it, or if it is empty, the plain rules stand in its place
#   REAL: the folder of compiled crates of oracle/real.sh, where nalgebra and rayon are to be the real ones
set -e
here=$(cd "$(dirname "$0")" && pwd)
rust=$(cd "$1" && pwd)
mkdir -p "$2/gen"
out=$(cd "$2" && pwd)
(cd "$rust" && sha256sum -c --quiet "$here/given.sha256")
R="${RUSTC:-rustc} -O --edition 2021"
cat "$rust/registration.rs" "$here/hooks.rs" >"$out/gen/registration.rs"
printf '#[path = "%s"] pub mod %s;\n' \
    "$rust/nearest_neighbor.rs" nearest_neighbor "$rust/filtering.rs" filtering "$out/gen/registration.rs" registration >"$out/gen/algorithms.rs"
if [ -n "$4" ]; then
    nalgebra=$(ls "$4"/libnalgebra-*.rlib)
    rayon=$(ls "$4"/librayon-*.rlib)
    X="-L $out -L dependency=$4 --extern nalgebra=$nalgebra"
else
    nalgebra=$out/libnalgebra.rlib
    rayon=$out/librayon.rlib
    $R --crate-type rlib --crate-name rayon "$here/standin/rayon.rs" -o "$rayon"
    $R --crate-type rlib --crate-name nalgebra "$here/standin/nalgebra.rs" -o "$nalgebra"
    X="-L $out --extern nalgebra=$nalgebra"
fi
$R --crate-type rlib --crate-name threecrate_core $X "$here/standin/threecrate_core.rs" -o "$out/libthreecrate_core.rlib"
X="$X --extern rayon=$rayon --extern threecrate_core=$out/libthreecrate_core.rlib"
$R --crate-type rlib --crate-name threecrate_algorithms $X "$out/gen/algorithms.rs" -o "$out/libthreecrate_algorithms.rlib" 2>"$out/given.log" || { cat "$out/given.log" >&2; exit 1; }
X="$X --extern threecrate_algorithms=$out/libthreecrate_algorithms.rlib"
if [ -n "$3" ]; then X="$X --cfg linked -C link-arg=$3"; fi
$R --crate-name oracle -C codegen-units=1 --check-cfg 'cfg(linked, test)' $X "$here/src/main.rs" -o "$out/oracle"
