#!/bin/sh
# tests/scripts.sh: ./run, ./library, ./install and the build scripts of the Rust crates. First the real program
# and library, which are proved before; then a small repository in which stand-ins of rt and cargo
# (tests/scripts) prove nothing and take no time: progress, stamps, failures, and two runs at a time.
set -eu
cd "$(dirname "$0")/.."
top=$PWD
room=$(mktemp -d)
trap 'rm -rf "$room"' EXIT
out=$room/out err=$room/err
touch "$out" "$err"

fail() {
    echo "scripts.sh: $*" >&2
    sed 's/^/  out: /' "$out" | head -n 20 >&2
    sed 's/^/  err: /' "$err" | head -n 40 >&2
    exit 1
}

# runs a command line of sh, which must end with this status
ends() { # STATUS COMMAND
    ended=0
    sh -c "$2" >"$out" 2>"$err" </dev/null || ended=$?
    [ "$ended" -eq "$1" ] || fail "$2 ended with $ended, not $1"
}

prints() { # TEXT
    [ "$(cat "$out")" = "$1" ] || fail "this is not what was printed: $1"
}

says() { # PATTERN
    grep -q -e "$1" "$err" || fail "standard error does not say: $1"
}

is_silent() {
    [ ! -s "$err" ] || fail "standard error is not empty"
}

# ---- the program

run_statuses() {
    ./run examples/cohort.bin >/dev/null # proves it, if need be, and leaves its stamp
    ends 0 './run examples/cohort.bin'
    cmp "$out" examples/cohort.out || fail "the cohort's text is another"
    is_silent
    ends 0 "cd examples && ../run <cohort.bin"
    cmp "$out" examples/cohort.out || fail "the cohort's text from standard input is another"
    ends 0 './run --help'
    grep -q '^usage: ./run' "$out" || fail "--help prints no usage"
    is_silent

    ends 1 'printf x | ./run'
    prints 'R 20 - -'
    says "^run: refused with 20: the records are not whole, are more than 256"
    ends 1 './run /dev/null'
    prints 'R 1 - -'
    ends 1 'head -c 100000 /dev/zero | ./run'
    prints 'R 20 - -'

    for words in nonesuch examples '""'; do
        ends 2 "./run $words"
        prints ''
        says 'cannot be read'
    done
    for words in 'examples/cohort.bin examples/cohort.bin' --nonesuch '--decimal --nonesuch' -d; do
        ends 2 "./run $words"
        prints ''
        says '^usage: ./run'
    done

    for from in '<&-' '<examples'; do
        ends 3 "./run $from"
        prints ''
        says 'standard input cannot be read'
    done
    for words in examples/cohort.bin /dev/null; do
        ends 3 "./run $words >/dev/full"
        says 'cannot be written'
        ends 3 "./run $words >&-"
    done
    ends 0 './run examples/cohort.bin <&-'
}

# with a terminal for its standard input it says what it awaits
run_terminal() {
    if ! script -qec true /dev/null >/dev/null 2>&1; then
        echo "scripts.sh: there is no command script, or no terminal for it: what is for terminals is left out"
        return
    fi
    printf '\004' | script -qec './run 2>&1' /dev/null >"$out" 2>"$err" || true
    grep -q 'records of 48 bytes' "$out" || fail "a terminal is not told what is awaited"
    grep -q 'R 1 - -' "$out" || fail "ctrl-D does not end the records"
    ends 0 './run <examples/cohort.bin'
    is_silent
}

# ---- the library, in place

# $room/tools has the commands that the scripts use, and neither rt nor cargo; $room/no_ar has no ar besides
tools() {
    mkdir "$room/tools" "$room/no_ar"
    for name in sh ar awk basename cat chmod cmp cp cut date dirname env find flock grep head install ld as gcc ls mkdir \
        mktemp mv pkg-config rm script sed seq sha256sum sleep sort tail touch tr wc; do
        path=$(command -v "$name") || continue
        ln -s "$path" "$room/tools/$name"
        [ "$name" = ar ] || ln -s "$path" "$room/no_ar/$name"
    done
    mkdir "$room/rust"
    for name in cargo rustc cc; do
        path=$(command -v "$name") || continue
        ln -s "$path" "$room/rust/$name"
    done
}

# a host in C against what was installed, by what pkg-config says of it
install_library() {
    ./library # builds it, if need be, and leaves its stamp
    ends 0 "PATH=$room/tools ./install '$room/prefix'"
    says 'there is no cargo, so that the command line program is left out'
    [ ! -e "$room/prefix/bin" ] || fail "a command line program was installed without cargo"
    pc=$room/prefix/lib/pkgconfig/curlewstand.pc
    grep -q "^#define CURLEWSTAND_VERSION \"$(sed -n 's/^Version: //p' "$pc")\"$" include/curlewstand.h ||
        fail "the version of pkg-config is not the header's"
    if command -v pkg-config >/dev/null; then
        flags=$(PKG_CONFIG_PATH=$room/prefix/lib/pkgconfig pkg-config --cflags --libs curlewstand)
    else
        flags="-I$room/prefix/include -L$room/prefix/lib -lcurlewstand"
    fi
    # shellcheck disable=SC2086
    (cd "$room" && gcc "$top/examples/host.c" $flags -o host) || fail "examples/host.c does not link with what was installed"
    "$room/host" | cmp - examples/host.out || fail "the host with what was installed prints another text"

    (cd "$room" && PATH=$room/tools DESTDIR=$room/stage "$top/install" usr) 2>"$err" || fail "DESTDIR is not honoured"
    cmp include/curlewstand.h "$room/stage$room/usr/include/curlewstand.h" || fail "DESTDIR has no header"
    grep -q "^prefix=$room/usr$" "$room/stage$room/usr/lib/pkgconfig/curlewstand.pc" || fail "DESTDIR is in the .pc file"
    ends 0 './install --help'
    for words in '' '/a /b' --nonesuch '""'; do
        ends 2 "./install $words"
        says '^usage: ./install'
    done
    ends 1 "PATH=$room/tools ./install /dev/null/prefix"
}

# ---- a small repository with stand-ins

small() {
    mkdir "$room/small" "$room/small/rust" "$room/rt" "$room/cargo"
    cp tests/scripts/rt "$room/rt"
    cp tests/scripts/cargo "$room/cargo"
    cp -R run library install scripts include examples "$room/small"
    for name in rust/*; do [ "$name" = rust/target ] || cp -R "$name" "$room/small/rust"; done
    cd "$room/small"
    parts=$(sed -n 's/^parts="\(.*\)"$/\1/p' library)
    echo "ground: # the kit's libraries are not counted" >crates.txt
    for name in $parts test_exports_c focei aside; do
        case $name in focei | aside) kind= ;; *) kind=' staticlib' ;; esac
        echo "$name$kind: ground io" >>crates.txt
        mkdir -p "crates/$name/src"
        echo "of $name" >"crates/$name/src/lib.rt"
    done
    rm crates/focei/src/lib.rt
    echo 'records' >crates/focei/stdin
    echo 'O text of focei' >crates/focei/stdout
    mkdir -p crates/ground/src crates/ground/proofs
    echo 'of ground' >crates/ground/src/lib.rt
    echo 'of ground' >crates/ground/proofs/Lib.antt
    echo 'O text of focei' >crates/focei/src/main.rt
    PATH=$room/cargo:$room/rt:$room/tools FAKE_CALLS=$room/calls
    export PATH FAKE_CALLS
    : >"$FAKE_CALLS"
}

# what was called since it was last asked
calls() {
    cat "$FAKE_CALLS"
    : >"$FAKE_CALLS"
}

is_called() {
    [ -n "$(calls)" ] || fail "rt was not called: $1"
}

is_not_called() {
    [ -z "$(calls)" ] || fail "rt was called: $1"
}

# the lines of progress, from the announcement on
progress() {
    ends 2 './run nonesuch'
    is_not_called 'for a file that is not there'
    ends 0 './run examples/cohort.bin'
    prints 'O text of focei'
    [ "$(sed '1d; s/, [0-9]* s /, 7 s /' "$err")" = 'run: ground proved, 7 s (1 of 2)
run: focei proved, 7 s (2 of 2)' ] || fail "progress is not told"
    sed -n 1p "$err" | grep -q '^run: proving .* 2 crates .* minutes and .* GB' || fail "it is not told what it costs"
    is_called 'at first'
    ends 0 './run examples/cohort.bin'
    is_silent
    is_not_called 'though nothing was changed'

    echo 'R 13 0 -' >crates/focei/src/main.rt
    echo 'R 13 0 -' >crates/focei/stdout
    ends 1 './run examples/cohort.bin'
    prints 'R 13 0 -'
    says '^run: focei proved, [0-9]* s (2 of 2)$'
    says "^run: refused with 13: the subject's mode is not within the bound"
    ! grep -q 'ground proved' "$err" || fail "an unchanged crate is told"
    echo 'O text of focei' >crates/focei/src/main.rt
    ends 4 './run examples/cohort.bin'
    says 'the program focei does not write what crates/focei/stdout has'
    echo 'O text of focei' >crates/focei/stdout
    ends 0 './run examples/cohort.bin'
    prints 'O text of focei'
}

# what changes a product's sum has it made again, and nothing else has
stamps() { # COMMAND PRODUCT
    ends 0 "$1"
    calls >/dev/null
    for edit in 'echo x >>crates/ground/src/lib.rt' 'echo x >>crates/ground/proofs/Lib.antt' \
        'echo x >crates/ground/proofs/New.antt' 'rm crates/ground/proofs/New.antt' \
        'sed "s/: ground/: ground io/" crates.txt >new && mv new crates.txt' "echo >>$2" "rm $2" "rm $2.stamp" \
        'FAKE_KIT=another && export FAKE_KIT'; do
        eval "$edit"
        ends 0 "$1"
        is_called "after $edit"
        ends 0 "$1"
        is_silent
        is_not_called "a second time after $edit"
    done
    echo x >>crates/aside/src/lib.rt
    ends 0 "$1"
    is_not_called "for a crate that $2 does not stand on"
    unset FAKE_KIT
    ends 0 "$1"
    calls >/dev/null
}

libraries() {
    for name in curlewstand test_exports; do
        archive=target/staticlib/lib$name.a
        ends 0 "./library $name"
        prints ''
        is_called 'at first'
        count=$(if [ "$name" = curlewstand ]; then echo "$parts" | wc -w; else echo 1; fi)
        [ "$(ar t "$archive" | wc -l)" -eq "$count" ] || fail "$archive has not the archives of $count crates"
        says "^library: .* proved, [0-9]* s ($((count + 1)) of $((count + 1)))$"
        echo "text $name" >crates/ground/src/lib.rt
        ends 0 "./library $name"
        grep -q "text $name" "$archive" || fail "$archive is of the sources before the edit"
        stamps "./library $name" "$archive"
    done
    ends 0 './library curlewstand'
    is_called 'for curlewstand, after the edits for test_exports'
    ends 0 ./library
    is_not_called 'for the default, which is curlewstand'
    ends 0 './library --help'
    grep -q '^usage: ./library' "$out" || fail "--help prints no usage"
    for words in nonesuch 'curlewstand test_exports' '""'; do
        ends 2 "./library $words"
    done
    rm target/staticlib/libcurlewstand.a
    ends 1 "PATH=$room/rt:$room/no_ar ./library"
    says 'there is no command ar'
    calls >/dev/null
    ends 0 ./library
}

# with no rt at hand a product of these sources is taken, and no other
no_kit() {
    for words in './run examples/cohort.bin' ./library; do
        product=$(if [ "$words" = ./library ]; then echo target/staticlib/libcurlewstand.a; else echo target/bin/focei; fi)
        status=$(if [ "$words" = ./library ]; then echo 1; else echo 4; fi)
        ends 0 "$words"
        ends 0 "PATH=$room/tools $words"
        is_silent
        echo more >>crates/ground/src/lib.rt
        ends "$status" "PATH=$room/tools $words"
        prints ''
        says "$product is not made from these sources, and there is no command rt"
        rm "$product"
        ends "$status" "PATH=$room/tools $words"
        says "$product is missing, and there is no command rt"
        ends 0 "$words"
    done
}

# what is not proved is told, and leaves nothing that is taken for a product
failures() {
    for words in './run examples/cohort.bin' ./library './library test_exports'; do
        status=$(case $words in ./run*) echo 4 ;; *) echo 1 ;; esac)
        ends 0 "$words"
        echo yet more >>crates/ground/src/lib.rt
        for time in first second; do
            ends "$status" "FAKE_BROKEN=ground $words"
            prints ''
            says 'error: the two types differ'
            says '^crate ground: not proved$'
            ! grep -q 'second: proved\|logic\|modules\|rt: \|checked\|error 99' "$err" || fail "more than errors is told ($time)"
        done
        ends 0 "$words"
        ends 0 "$words"
        is_silent
    done
}

# the second waits for the first, and finds all made
two_at_a_time() {
    echo once more >>crates/ground/src/lib.rt
    calls >/dev/null
    FAKE_SECONDS=1 ./library 2>"$room/first" &
    first=$!
    FAKE_SECONDS=1 ./library 2>"$room/second" &
    second=$!
    wait "$first" || fail "the first of two runs failed"
    wait "$second" || fail "the second of two runs failed"
    cat "$room/first" "$room/second" >"$err"
    says 'waiting for another run that proves here'
    [ "$(grep -c ' proved, ' "$err")" -eq $(($(echo "$parts" | wc -w) + 1)) ] || fail "not each crate was proved once"
    calls | awk '{ if ($1 == before) together = 1; before = $1 } END { exit together }' || fail "two calls of rt were under way"
    ends 0 ./library
    is_silent
}

# ---- the command line program

decimal() {
    for status in 0 1 3; do
        ends "$status" "FAKE_STATUS=$status ./run --decimal examples/cohort.bin"
        { echo 'fit 2' && cat examples/cohort.bin; } | cmp - "$out" || fail "curlewstand fit is not called with the records"
    done
    ends 0 './run --decimal <examples/cohort.bin'
    grep -q '^fit 2$' "$out" || fail "curlewstand fit is not called with the records of standard input"
    is_silent
    rm -rf target/staticlib rust/target
    calls >/dev/null
    ends 0 './run --decimal examples/cohort.bin'
    says '^run: building the command line program$'
    calls | grep -q '^cargo build .*--release .*--package cli.* (library)$' || fail "cargo is not called over the library"
    ends 4 'FAKE_UNBUILT=yes ./run --decimal examples/cohort.bin'
    ends 4 "FAKE_BROKEN=ground && export FAKE_BROKEN && echo x >>crates/ground/src/lib.rt && ./run --decimal examples/cohort.bin"
    ends 4 "PATH=$room/rt:$room/tools ./run --decimal examples/cohort.bin"
    says 'needs cargo'
    ends 2 './run --decimal nonesuch'
    ends 0 "./install '$room/with_cargo'"
    [ -x "$room/with_cargo/bin/curlewstand" ] || fail "the command line program is not installed"
    ends 1 "FAKE_UNBUILT=yes ./install '$room/with_cargo'"
}

# ---- the build script of the Rust crate

build_script() {
    if [ ! -e "$room/rust/cargo" ]; then
        echo "scripts.sh: there is no cargo: the build script is left out"
        return
    fi
    rm -rf rust/target target
    build='cargo build --offline --manifest-path rust/Cargo.toml --target-dir rust/target --package curlewstand'
    no_rt="PATH=$room/rust:$room/tools && export PATH"
    with_rt="PATH=$room/rust:$room/rt:$room/tools && export PATH"

    # nothing is at hand; then a directory is named that has the library, and one that has it not
    ends 101 "$no_rt; $build"
    says 'libcurlewstand.a is missing, and there is no command rt'
    says 'CURLEWSTAND_LIB_DIR'
    ends 0 ./library
    mkdir "$room/given" "$room/empty"
    mv target/staticlib/libcurlewstand.a "$room/given"
    ends 0 "$no_rt; CURLEWSTAND_LIB_DIR=$room/given $build"
    sleep 1 # cargo goes by the time of a file
    touch "$room/given/libcurlewstand.a"
    ends 0 "$no_rt; CURLEWSTAND_LIB_DIR=$room/given $build"
    grep -q Compiling "$err" || fail "cargo does not look at the library that was given"
    ends 0 ./library
    calls >/dev/null
    ends 101 "$with_rt; CURLEWSTAND_LIB_DIR=$room/empty $build"
    says "libcurlewstand.a is not in $room/empty, which CURLEWSTAND_LIB_DIR names"
    is_not_called 'though a directory is named'

    # the library of the sources is taken as it is, with and without rt, and nothing is built again
    ends 0 "$no_rt; $build"
    ends 0 "$with_rt; CURLEWSTAND_LIB_DIR= $build"
    ends 0 "$with_rt; $build"
    is_not_called 'though the library is there'
    ends 0 "$with_rt; $build"
    ! grep -q Compiling "$err" || fail "cargo builds the crate again, and nothing was changed"

    # whatever the library is made by is watched, and that of other sources is made again, or named
    for source in crates.txt library scripts/proving.sh crates/aside/src/lib.rt; do
        sleep 1
        touch "$source"
        ends 0 "$with_rt; $build"
        grep -q Compiling "$err" || fail "cargo does not look at $source"
    done
    is_not_called 'though what was touched is the same'
    sleep 1
    echo 'text of the edit' >crates/ground/src/lib.rt
    ends 0 "$with_rt; $build"
    says 'libcurlewstand.a was proved and built, in [0-9]* s'
    grep -q 'text of the edit' target/staticlib/libcurlewstand.a || fail "the library is of the sources before the edit"
    sleep 1
    echo 'text of the next edit' >crates/ground/src/lib.rt
    ends 101 "$no_rt; $build"
    says 'libcurlewstand.a is not made from these sources, and there is no command rt'
    ends 101 "$with_rt; FAKE_BROKEN=ground $build"
    says 'error: the two types differ'
}

# cargo keeps what a build script says to itself: a terminal is shown the progress all the same
build_script_terminal() {
    [ -e "$room/rust/cargo" ] && script -qec true /dev/null >/dev/null 2>&1 || return 0
    sleep 1
    echo 'text of another edit' >crates/ground/src/lib.rt
    ends 0 "$with_rt; script -qec '$build' /dev/null"
    grep -q 'library: ground proved, [0-9]* s' "$out" || fail "the terminal is not shown the progress"
}

run_statuses
run_terminal
tools
install_library
small
progress
stamps './run examples/cohort.bin' target/bin/focei
libraries
no_kit
failures
two_at_a_time
decimal
build_script
build_script_terminal
echo "scripts.sh: run, library and install do what they say"
