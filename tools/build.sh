# Sourced by ./run, ./ks and tools/install: proves and builds what is missing or older than what it is made of, and says on standard error what is done. The
# script that sources it has set `root` (the repository), `name` (what its messages begin with) and pipefail.

say() {
    printf '%s: %s\n' "$name" "$1" >&2
}

# fresh PRODUCT SOURCE..: the product is there, and no source is newer.
fresh() {
    local product=$1
    shift
    [[ -e $product && -z $(find "$@" -newer "$product" -print -quit) ]]
}

# proved PRODUCT: the product is there, and nothing of the crates is newer. crates/CRATE/out is rt's own.
proved() {
    fresh "$1" "$root/crates.txt" && [[ -z $(find "$root/crates" -mindepth 2 -name out -prune -o -newer "$1" -print -quit) ]]
}

# build WHAT PRODUCT CRATES COMMAND..: runs the command, which has cargo compile these crates in this order, as far as they are not compiled; each is
# said on standard error when it begins, with how many are left.
build() {
    made "$1" "$2" "${@:4}" | awk -v name="$name" -v crates="$3" '
        BEGIN { many = split(crates, list, " "); for (i in list) place[list[i]] = i }
        $1 == "Compiling" {
            left = many - place[$2]
            printf "%s: compiling %s; %s\n", name, $2, (left == 1 ? "1 crate is left" : left ? left " crates are left" : "none is left")
            fflush()
        }' >&2
}

# prove WHAT PRODUCT CRATE COMMAND..: runs the command, which proves a crate and all that it stands on; each crate that is proved is said on
# standard error, with how many are left.
prove() {
    command -v rt >/dev/null || { say 'rt is not in PATH'; return 1; }
    made "$1" "$2" "${@:4}" | countdown "$3" >&2
}

# countdown CRATE: of the lines of rt, those that a crate is proved which is this or one that it stands on by crates.txt, with how many are left. rt says
# nothing of a crate that is unchanged: it is done with what stands on it.
countdown() {
    awk -v name="$name" -v top="$1" '
        # finish(CRATE): it and all that it stands on are done; how many of them were not.
        function finish(crate,   on, many, i, new) {
            if (!(crate in stands) || crate in finished) return 0
            finished[crate]
            many = split(stands[crate], on, " ")
            new = 1
            for (i = 1; i <= many; i++) new += finish(on[i])
            return new
        }
        FNR == NR {
            if (/^[a-z]/ && split($0, line, ":") == 2 && split(line[1], head, " ")) stands[head[1]] = line[2]
            next
        }
        FNR == 1 {
            left = finish(top)
            split("", finished)
        }
        /^crate [a-z_]+: / { crate = substr($2, 1, length($2) - 1) }
        /^logic=proved/ && crate in stands && !(crate in finished) {
            left -= finish(crate)
            printf "%s: %s proved; %s\n", name, crate, (left == 1 ? "1 crate is left" : left ? left " crates are left" : "all are proved")
            fflush()
        }' "$root/crates.txt" -
}

# made WHAT PRODUCT COMMAND..: runs the command at the root. All that it prints stands in target/build.log. What is edited while it runs is
# newer than the product.
made() {
    local what=$1 product=$2 log=$root/target/build.log begun
    shift 2
    command -v "$1" >/dev/null || { say "$1 is not in PATH"; return 1; }
    mkdir -p "$root/target"
    begun=$(mktemp)
    if ! (cd "$root" && "$@" 2>&1) | tee "$log"; then
        rm -f "$begun"
        say "$what could not be built; the last lines of $log:"
        tail -n 20 "$log" >&2
        return 1
    fi
    touch -r "$begun" "$product"
    rm -f "$begun"
}

library=$root/target/staticlib/libkunzeastylus.a
bench=$root/target/bin/bench
program=$root/build/release/ks

# Each of these sees to it that one of the three is there and no older than what it is made of.
have_library() {
    proved "$library" && return
    say 'proving and building the library; the first time takes minutes'
    prove 'the library' "$library" kunzeastylus_c "$root/tools/library"
}

have_bench() {
    proved "$bench" && return
    say 'proving and building the bench program; the first time takes minutes'
    prove 'the bench program' "$bench" bench "$root/tools/bench"
}

have_ks() {
    have_library || return
    fresh "$program" "$library" "$root"/{desk,bindings}/{src,Cargo.toml} "$root/desk/help" "$root/bindings/build.rs" "$root"/Cargo.{toml,lock} && return
    say 'building the program'
    build 'the program' "$program" 'kunzeastylus desk' cargo build --release --offline --locked -p desk --bin ks
}
