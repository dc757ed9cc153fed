# The proved library in a folder, for ./draw and ./install, with a line of progress for each crate. They source this
# file behind compare/setup.sh, with $root at the top of the repository and $build at the folder that they build in.

# The program needs none of the crates that Debian packs.
needed=()
for package in "${packages[@]}"; do
    [[ $package == librust-* ]] || needed+=("$package")
done
packages=("${needed[@]}")

# Where Debian's rustc and cargo are missing, those on the path do as well.
if [ "$native" = yes ] && ! { [ -x "$cargo" ] && [ -x "$rustc" ]; } &&
    command -v cargo >/dev/null && command -v rustc >/dev/null; then
    cargo=$(command -v cargo)
    rustc=$(command -v rustc)
    packages=()
fi

# What our library is made from: the toolchain, and a sum over the files that are proved.
library_sources() {
    (
        cd "$root"
        rt version
        find crates.txt crates -name out -prune -o -type f \( -name '*.rt' -o -name '*.antt' -o -name crates.txt \) -print0 |
            LC_ALL=C sort -z | xargs -0 sha256sum | sha256sum
    )
}

# A line for each crate that contour_c is proved with, behind those that it needs: its name and what it needs.
needed_crates() {
    awk '{ sub(/#.*/, "") } /:/ { name = $1; sub(/:.*/, "", name); sub(/^[^:]*:/, ""); needs[name] = $0 }
        function visit(name, list, k, count) {
            if (name in seen || !(name in needs)) return
            seen[name] = 1
            count = split(needs[name], list, " ")
            for (k = 1; k <= count; k++) visit(list[k])
            print name, needs[name]
        }
        END { visit("contour_c") }' "$root/crates.txt"
}

# Whether a crate looks as if it had to be proved: it never was, or a file of it is newer than what was made of it.
looks_unproved() {
    local out=$root/crates/$1/out made
    for made in "$out/rlib/stamp" "$out/lib$1.a"; do
        if [ -e "$made" ]; then
            [ -n "$(find "$root/crates/$1" -path "$out" -prune -o -newer "$made" -name '*.*t' -print -quit)" ]
            return
        fi
    done
}

# Sets, for each crate, $weights to what proving it takes and $due to the same if that is to be done, else 0. The
# time of a check goes most nearly with the bytes of the crate's code, and there is something to do for a crate
# without any.
weigh_crates() {
    local crate needs need
    while read -r crate needs; do
        weights[$crate]=$((600 + $(cat "$root/crates/$crate"/src/*.rt | wc -c))) due[$crate]=0
        ! looks_unproved "$crate" || due[$crate]=${weights[$crate]}
        for need in $needs; do
            [ "${due[$need]:-0}" = 0 ] || due[$crate]=${weights[$crate]}
        done
    done < <(needed_crates)
}

# A time that is left, in words.
in_words() {
    if [ "$1" -ge 90 ]; then
        echo "about $((($1 + 30) / 60)) min left"
    else
        echo "about $1 s left"
    fi
}

# Reads what rt says while it proves, and prints a line for each crate that it proves or does not. A file has it all.
show_progress() {
    local log=$1 crate=contour_c line began=$SECONDS took count=0 left=0 spent=0
    local -A weights due
    weigh_crates
    for crate in "${!due[@]}"; do
        left=$((left + due[$crate]))
        [ "${due[$crate]}" != 0 ] || count=$((count + 1))
    done
    while IFS= read -r line; do
        echo "$line" >>"$log"
        case $line in
        "rt: chose --jobs "*) crate=${line##* } ;;
        "logic=proved "*)
            [ "${due[$crate]:-0}" = 0 ] || count=$((count + 1))
            left=$((left - ${due[$crate]:-0})) spent=$((spent + ${weights[$crate]:-0})) due[$crate]=0
            took=$((SECONDS - began))
            echo "proved $crate, $count of ${#due[@]} crates, $(in_words $(((took > 0 ? took : 1) * left / (spent > 0 ? spent : 1))))"
            ;;
        "logic=not-proved"*) echo "$crate is not proved" ;;
        esac
    done
}

# Proves the library and writes it.
prove_library() {
    local log=$build/proving.log
    : >"$log"
    echo "proving the library; the first time that takes some minutes"
    "$root/tools/staticlib" 2>&1 | show_progress "$log" || {
        echo "the library is not proved; $log has what was said" >&2
        return 1
    }
}

# The library in $build/lib. Our own is proved again only when something has changed that it is made from, and a
# library that is there already is left, since cargo goes by its time.
place_library() {
    local placed=$build/lib/libcontour_c.a made_from=$build/lib/made-from sources
    mkdir -p "$build/lib"
    if [ -n "${CONTOUR_C_LIB:-}" ]; then
        rm -f "$made_from"
        cmp -s "$CONTOUR_C_LIB" "$placed" || cp "$CONTOUR_C_LIB" "$placed"
        return
    fi
    command -v rt >/dev/null || {
        echo "there is no rt on the path: the Rattle toolchain proves the library" >&2
        return 1
    }
    sources=$(library_sources)
    if [ ! -f "$placed" ] || [ ! -f "$made_from" ] || [ "$sources" != "$(cat "$made_from")" ]; then
        prove_library
        cp "$root/target/staticlib/libcontour_c.a" "$placed"
        echo "$sources" >"$made_from"
    fi
}
