# Shared by tools/differential and tools/cuts: builds the reference, holds the replay program to it.
# Expects root (the repository's root) to be set.
# shellcheck shell=sh
: "${root:?}"

batch_size=200
progress_step=2000

say() { printf '%s: %s\n' "${0##*/}" "$*" >&2; }

fail() { # STATUS WORDS
    status=$1
    shift
    say "$@"
    exit "$status"
}

is_number() { # WORD
    case $1 in '' | *[!0-9]*) return 1 ;; esac
}

open_room() {
    room=$(mktemp -d) || fail 73 'no temporary folder'
    trap 'rm -rf "$room"' EXIT
    trap 'exit 129' HUP
    trap 'exit 130' INT
    trap 'exit 143' TERM
}

build_reference() {
    command -v cargo >/dev/null 2>&1 || fail 69 'cargo is missing, so the reference cannot be built'
    (
        cd "$root/tools/reference" &&
            CARGO_TARGET_DIR=$root/target/reference cargo build --release --offline --quiet
    ) || fail 1 'the reference does not build'
    reference=$root/target/reference/release/reference
}

find_replay() { # PATH
    case $1 in /*) replay=$1 ;; *) replay=$PWD/$1 ;; esac
    if ! [ -f "$replay" ] || ! [ -x "$replay" ]; then
        fail 66 "no program $replay: 'rt run </dev/null' in crates/replay makes it"
    fi
}

# Holds the replay program to the reference for every file of a folder, in batches. What is
# expected of them all is left in $room/expected.
compare_folder() { # FOLDER
    cd "$1" || fail 66 "no folder $1"
    rm -f "$room"/batch.* "$room/expected"
    find . -name '*.bin' | sed 's:^\./::' | sort >"$room/names"
    split -a 4 -l "$batch_size" "$room/names" "$room/batch."
    total=$(awk 'END { print NR }' "$room/names")
    compared=0
    for batch in "$room"/batch.*; do
        compare_batch "$batch"
        if [ $((compared % progress_step)) -eq 0 ] && [ "$compared" -lt "$total" ]; then
            say "$compared of $total files"
        fi
    done
    cd "$root" || exit 1
}

compare_batch() { # LIST: a file that names the files of the batch, one to a line
    IFS='
'
    set -f
    # shellcheck disable=SC2046
    set -- $(cat "$1")
    set +f
    unset IFS
    ended=0
    "$replay" "$@" >"$room/got" || ended=$?
    "$reference" expect "$@" >"$room/want" || fail 1 'the reference failed'
    cmp -s "$room/want" "$room/got" || show_difference
    # A status of 126 or more: not run at all, or killed.
    [ "$ended" -lt 126 ] || fail 1 "the program ended with status $ended"
    cat "$room/want" >>"$room/expected"
    compared=$((compared + $#))
}

show_difference() {
    name=$(first_different "$room/want" "$room/got")
    mkdir -p "$root/target/differential"
    cp "$name" "$root/target/differential/$name"
    text_of "$name" "$room/want" >"$room/want.one"
    text_of "$name" "$room/got" >"$room/got.one"
    say "the texts of $name differ (< reference, > replay); it is kept in target/differential"
    diff "$room/want.one" "$room/got.one" | head -n 20
    exit 1
}

# The name of the first file of which the two texts say different things.
first_different() { # WANT GOT
    awk -v got="$2" '
        $1 == "file" { name = substr($0, 6) }
        (getline line <got) <= 0 || line "" != $0 "" { exit }
        END { print name }' "$1"
}

# The part of a text that is about one file.
text_of() { # NAME TEXT
    awk -v name="$1" '$1 == "file" { on = substr($0, 6) == name } on' "$2"
}
