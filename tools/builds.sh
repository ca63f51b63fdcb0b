# Which build of a program answers, for ../bspl in a checkout: the one that is proved, crates/NAME/out/NAME, if no source
# is newer; else out/NAME, which is compiled without proofs, and is made anew if a source is newer. The time of a program
# is that at which its build began. $top is the folder of the checkout.

# the crates that the program stands on, and itself
below() {
    awk -F: -v program="$1" '{ sub(/#.*/, ""); split($1, head, " "); if (head[1] != "") uses[head[1]] = $2 }
        function visit(crate, names, n, i) {
            if (crate in seen || !(crate in uses)) return
            seen[crate] = 1
            n = split(uses[crate], names, " ")
            for (i = 1; i <= n; i++) visit(names[i])
            print crate
        }
        END { visit(program) }' "$top/crates.txt"
}

# a source, definition or proof that is newer than the file, or the list of crates; a folder's time tells what went
newer_than() {
    (cd "$top/crates" && find ../crates.txt $crates \( -name out -o -name must-fail \) -prune -o \
        \( -name crates.txt -o -path '*/src*' -o -path '*/specs*' -o -path '*/proofs*' \) -newer "$1" -print -quit)
}

# the same for what a build without proofs reads
source_newer_than() {
    (cd "$top/crates" && find ../crates.txt $crates \( -name out -o -name must-fail -o -name specs -o -name proofs \) \
        -prune -o \( -name crates.txt -o -path '*/src*' \) -newer "$1" -print -quit)
}

# the state of the program NAME: proved, unproved, old (both are older than a source) or absent
look_at() {
    proved=$top/crates/$1/out/$1
    unproved=$top/out/$1
    crates=$(below "$1")
    if [ -x "$proved" ] && [ -z "$(newer_than "$proved")" ]; then
        state=proved
    elif [ -x "$unproved" ] && [ -z "$(source_newer_than "$unproved")" ]; then
        state=unproved
    elif [ -x "$proved" ] || [ -x "$unproved" ]; then
        state=old
    else
        state=absent
    fi
}

is_absent() {
    look_at "$1"
    [ $state = absent ]
}

# whether the program can answer at once
is_built() {
    look_at "$1"
    [ $state = proved ] || [ $state = unproved ]
}

# the state in words
state_of() {
    look_at "$1"
    case $state in
    proved) echo proved ;;
    unproved) echo 'compiled, not proved' ;;
    old) echo 'built of older sources' ;;
    absent) echo 'not built' ;;
    esac
}

# answers from an old build where nothing may be written
fall_back() {
    path=$proved
    [ -x "$path" ] || path=$unproved
    if [ ! -x "$path" ]; then
        echo "bspl: $1 is not built, and $top may not be written to: whoever may calls ./bspl prove there" >&2
        exit 70
    fi
    echo "bspl: $1 was built of older sources, and $top may not be written to" >&2
}

# sets path to the program NAME, which is compiled if need be
find_program() {
    look_at "$1"
    case $state in
    proved) path=$proved && return ;;
    unproved) ;;
    *)
        if [ ! -w "$top" ]; then
            fall_back "$1"
            [ "$path" = "$proved" ] || note_unproved
            return
        fi
        "$top/tools/build.py" "$1" || exit 70
        ;;
    esac
    path=$unproved
    note_unproved
}
