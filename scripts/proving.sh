# For ./run, ./library and ./install, which source it at the top of the repository: what they make of the crates.
# rt proves and builds in a crate's folder, crates/NAME/out; what hosts take is copied to target/bin and
# target/staticlib. A product has a stamp beside it, a file that says which sources it was made from, so that one of
# other sources is never taken for it. While rt proves, each crate is named on standard error.

me=$(basename "$0")

say() {
    printf '%s: %s\n' "$me" "$*" >&2
}

# Prints the lines of crates.txt of some crates and of those that they stand on, the lowest first: a crate's name,
# 'staticlib' after it for a static library, and the crates that it uses. Libraries of the kit have none.
stands_on() { # CRATES
    WANTED=$1 awk '
        function visit(n, on, i, m) {
            if (!(n in uses) || n in seen) return
            seen[n] = 1
            m = split(uses[n], on, " ")
            for (i = 1; i <= m; i++) visit(on[i])
            print head[n] ":" uses[n]
        }
        { sub(/#.*/, ""); i = index($0, ":") }
        i { split(substr($0, 1, i - 1), words, " "); n = words[1]; head[n] = n (words[2] ? " " words[2] : ""); uses[n] = substr($0, i + 1) }
        END { m = split(ENVIRON["WANTED"], wanted, " "); for (i = 1; i <= m; i++) visit(wanted[i]) }' crates.txt
}

# Prints one sum of all that some crates are made from.
sum_of() { # CRATES
    stands_on "$1" | while IFS=: read -r head uses; do
        name=${head%% *}
        echo "$head:$uses"
        find "crates/$name/src" "crates/$name/specs" "crates/$name/proofs" -type f -exec sha256sum {} + 2>/dev/null |
            LC_ALL=C sort
    done | sha256sum | cut -d ' ' -f 1
}

# Prints the stamp of a product as it is, made from sources of this sum. Where rt is not at hand to tell the kit,
# the kit is taken to be the one of the stamp that there is.
stamp_of() { # PRODUCT SUM
    kit=$(rt version 2>/dev/null || sed -n 's/^kit //p' "$1.stamp" 2>/dev/null || true)
    printf 'kit %s\nsources %s\nproduct %s\n' "$kit" "$2" "$(sha256sum "$1" | cut -d ' ' -f 1)"
}

is_made() { # PRODUCT SUM
    [ -f "$1" ] && [ -f "$1.stamp" ] && [ "$(cat "$1.stamp")" = "$(stamp_of "$1" "$2")" ]
}

# Copies a file to its place at once, so that whoever reads or runs it there meets no half of it.
put() { # FILE PLACE
    mkdir -p "$(dirname "$2")" && cp "$1" "$2.new" && mv "$2.new" "$2"
}

# Proves one crate, over those below it, and builds what it makes: a library, an archive, or a program, which is
# also run, and must write what its file stdout has.
prove_one() { # NAME
    if [ ! -f "crates/$1/src/main.rt" ]; then
        (cd "crates/$1" && rt lib </dev/null)
        return
    fi
    (cd "crates/$1" && rt run <stdin) >"target/log/$1.stdout" || return
    cmp "target/log/$1.stdout" "crates/$1/stdout" || {
        echo "the program $1 does not write what crates/$1/stdout has"
        return 1
    }
}

# Proves some crates and those that they stand on, the lowest first. Each that is proved now is told, as the n-th of
# so many (those that were proved before are counted and not told). Of what rt says of a crate that it does not
# prove, target/log/proving gets what is left when all that went well is taken out.
prove() { # CRATES
    stands_on "$1" | {
        n=0 of=$(stands_on "$1" | wc -l)
        while IFS=: read -r head _; do
            name=${head%% *} n=$((n + 1)) since=$(date +%s)
            if ! prove_one "$name" >target/log/rt 2>&1; then
                grep -v -e ': proved$' -e '^logic[ =]' -e '^\(library\|crate\|statements\|axioms\|checked\) ' \
                    -e '^so far: ' -e '^rt: chose ' -e '^rt: .*: begins with ' -e '^rt: running ' \
                    target/log/rt >target/log/proving
                echo "crate $name: not proved" >>target/log/proving
                exit 1
            fi
            ! grep -q '^logic=proved' target/log/rt || say "$name proved, $(($(date +%s) - since)) s ($n of $of)"
        done
    }
}

# Proves a crate, and takes what it makes from its folder to a place.
prove_and_put() { # CRATE FILE PLACE
    prove "$1" && put "$2" "$3" 2>>target/log/proving
}

# Makes a product of some crates by a command, which proves them, where it is not yet that of the sources. Its cost,
# from nothing, is told before. Two runs would spoil each other's proofs, so that the second waits.
make_product() ( # PRODUCT CRATES COST COMMAND...
    product=$1 crates=$2 cost=$3
    shift 3
    sum=$(sum_of "$crates")
    if is_made "$product" "$sum"; then exit 0; fi
    if ! command -v rt >/dev/null; then
        if [ -f "$product" ]; then why='is not made from these sources'; else why='is missing'; fi
        say "$product $why, and there is no command rt to prove and build it: put Rattle's kit on PATH (README.md)"
        exit 1
    fi
    mkdir -p target/log
    exec 9>target/lock
    if ! flock -n 9; then
        say "waiting for another run that proves here"
        flock 9 || exit 1
        if is_made "$product" "$sum"; then exit 0; fi
    fi
    count=$(stands_on "$crates" | wc -l)
    say "proving what is not proved yet of the $count crates of $product; from nothing it takes $cost"
    : >target/log/proving
    if "$@"; then
        stamp_of "$product" "$sum" >"$product.stamp"
    else
        say "$product was not made, for this reason (all of it is in target/log/proving):"
        sed -n '1,25p;26,$ { $p; }' target/log/proving | cut -c 1-500 >&2
        exit 1
    fi
)

# Takes a program that rt ci has just proved and built to where hosts look for it, with its stamp.
take_program() { # NAME
    put "crates/$1/out/$1" "target/bin/$1" && stamp_of "target/bin/$1" "$(sum_of "$1")" >"target/bin/$1.stamp"
}

# Builds the command line program, rust/target/release/curlewstand, over the library that ./library makes.
make_command_line() {
    CURLEWSTAND_LIB_DIR='' cargo build --quiet --offline --release --manifest-path rust/Cargo.toml \
        --target-dir rust/target --package cli </dev/null >&2
}
