# Packages, our static library and cargo, for the scripts that hold our library against the crate,
# compare/run and bench/run, and for ./draw, ./install and compare/outside. They source this file, with $root at the
# top of the repository.

build=$root/target/compare
target=x86_64-unknown-linux-gnu
packages=(rustc cargo librust-slab-dev librust-rustc-hash-dev librust-lazy-static-dev librust-geo-types-dev)
linker=cc
nm=nm
cargo=/usr/bin/cargo
rustc=/usr/bin/rustc
emulator=()

# Our library is x86-64 code. Any other processor takes a cross linker and runs all programs in an emulator.
case $(uname -m) in
x86_64) native=yes ;;
*)
    native=no
    packages+=(gcc-x86-64-linux-gnu libc6-dev-amd64-cross qemu-user)
    linker=x86_64-linux-gnu-gcc
    nm=x86_64-linux-gnu-nm
    emulator=(qemu-x86_64 -L /usr/x86_64-linux-gnu)
    ;;
esac

installed() { [ "$(dpkg-query -W -f '${db:Status-Status}' "$1" 2>/dev/null)" = installed ]; }

install_packages() {
    local missing=() package
    for package in "${packages[@]}"; do
        installed "$package" || missing+=("$package")
    done
    [ ${#missing[@]} -gt 0 ] || return 0
    echo "installing ${missing[*]}"
    export DEBIAN_FRONTEND=noninteractive
    apt-get update -qq
    apt-get install -y -qq -o DPkg::Lock::Timeout=600 --no-install-recommends "${missing[@]}" >"$build/install.log" 2>&1 || {
        cat "$build/install.log" >&2
        return 1
    }
}

# Rust's standard library for x86-64, unpacked into the build folder and not installed.
unpack_x86_64_std() {
    local apt=$build/apt
    [ ! -d "$build/std" ] || return 0
    echo "unpacking libstd-rust-dev for x86-64"
    mkdir -p "$apt/lists/partial" "$apt/cache/archives/partial"
    local options=(-qq -o APT::Architecture=amd64 -o APT::Architectures=amd64 -o APT::Sandbox::User=root
        -o "Dir::State::lists=$apt/lists" -o "Dir::Cache=$apt/cache")
    apt-get "${options[@]}" update
    (cd "$apt" && rm -f ./*.deb && apt-get "${options[@]}" download libstd-rust-dev)
    dpkg -x "$apt"/libstd-rust-dev_*.deb "$build/std.part"
    mv "$build/std.part" "$build/std"
}

# The library that everything is linked with, under one name in one folder.
place_library() {
    local library=${CONTOUR_C_LIB:-}
    if [ -z "$library" ]; then
        "$root/tools/staticlib"
        library=$root/target/staticlib/libcontour_c.a
    fi
    mkdir -p "$build/lib"
    cp "$library" "$build/lib/libcontour_c.a"
}

# Whether the placed library defines this function.
library_has() {
    local symbols
    symbols=$("$nm" --defined-only "$build/lib/libcontour_c.a")
    grep -q " T $1\$" <<<"$symbols"
}

# What a driver is to be built with: $features, by what the placed library has beside the rings.
find_features() {
    features=()
    if library_has contour_contours; then
        features+=(--features regions)
    fi
    if library_has contour_lines; then
        features+=(--features lines)
    fi
    if library_has contour_geojson; then
        features+=(--features geojson)
    fi
    if library_has contour_rows_row; then
        features+=(--features rows)
    fi
    if library_has contour_ring_fate; then
        features+=(--features why)
    fi
}

# A command of cargo for a package, Debian's own whatever else is on the path, with no settings of the user's. The
# folder compare/ says where the dependencies stand, so cargo is called there.
cargo_for() {
    local command=$1 package=$2
    shift 2
    (
        unset RUSTFLAGS CARGO_ENCODED_RUSTFLAGS CARGO_BUILD_RUSTFLAGS RUSTC_WRAPPER CARGO_BUILD_TARGET
        export RUSTC=$rustc RUSTDOC=${rustc%c}doc CARGO_HOME=$build/cargo CARGO_TARGET_DIR=$build
        export CONTOUR_C_FOLDER=$build/lib CARGO_TARGET_X86_64_UNKNOWN_LINUX_GNU_LINKER=$linker
        if [ $native = no ]; then
            export CARGO_ENCODED_RUSTFLAGS=--sysroot=$build/std/usr
            export CARGO_TARGET_X86_64_UNKNOWN_LINUX_GNU_RUNNER=${emulator[*]}
        fi
        cd "$root/compare"
        "$cargo" "$command" --quiet --release --offline --target "$target" \
            --manifest-path "$package/Cargo.toml" "$@"
    )
}

build_package() { cargo_for build "$@"; }

# Everything up to the placed library.
prepare() {
    mkdir -p "$build"
    install_packages
    [ $native = yes ] || unpack_x86_64_std
    place_library
}
