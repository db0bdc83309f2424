#!/bin/sh
# The real nalgebra and rayon, as Debian's release trixie has them, by package name: unpacked below OUT and compiled there.
#   oracle/real.sh OUT    It needs apt, dpkg-deb, cargo and the network. The machine's own packages and sources stay as they are:
#   apt runs on lists and a state of its own below OUT.
set -e
mkdir -p "$1"
out=$(cd "$1" && pwd)
mkdir -p "$out/apt/lists/partial" "$out/apt/cache/archives/partial" "$out/debs" "$out/unpacked" "$out/src" "$out/.cargo"
: >"$out/apt/status"
# from where this machine has its own Debian packages
from=$(apt-get indextargets --format '$(REPO_URI)' 2>/dev/null | grep -m 1 '/debian/*$') || { echo "oracle/real.sh: no source of Debian packages here" >&2; exit 2; }
echo "deb [signed-by=/usr/share/keyrings/debian-archive-keyring.gpg] $from trixie main" >"$out/apt/sources.list"
cat >"$out/apt/apt.conf" <<END
Dir::Etc::sourcelist "$out/apt/sources.list";
Dir::Etc::sourceparts "/dev/null";
Dir::State::lists "$out/apt/lists";
Dir::State::status "$out/apt/status";
Dir::Cache "$out/apt/cache";
Acquire::Languages "none";
APT::Sandbox::User "root";
END
export APT_CONFIG="$out/apt/apt.conf"
apt-get -qq update
names=$(apt-get -s --no-install-recommends install librust-nalgebra-dev librust-rayon-dev | awk '/^Inst librust-/ { print $2 }')
(cd "$out/debs" && apt-get -qq download $names)
for deb in "$out"/debs/*.deb; do dpkg-deb -x "$deb" "$out/unpacked"; done
cat >"$out/Cargo.toml" <<'END'
[package]
name = "leans"
version = "0.0.0"
edition = "2021"
[dependencies]
nalgebra = { version = "*", default-features = false, features = ["std"] }
rayon = "*"
END
: >"$out/src/lib.rs"
cat >"$out/.cargo/config.toml" <<END
[source.crates-io]
replace-with = "debian"
[source.debian]
directory = "$out/unpacked/usr/share/cargo/registry"
END
(cd "$out" && cargo build --release --offline --quiet)
(cd "$out" && cargo tree --offline --quiet --depth 1)
