# What the scripts share. A script sets `me`, the name before all that it says, and sources this by the place of its own file, links followed.
set +o posix
unset CDPATH
root=$(dirname -- "$(dirname -- "$(readlink -f -- "${BASH_SOURCE[0]}")")")

say() { printf '%s\n' "$me: $*" >&2; }
fail() { # STATUS WORDS ..
    say "${*:2}"
    exit "$1"
}

# A name on one line.
shown() { # NAME
    case $1 in
    *[[:cntrl:]]*) printf '%q\n' "$1" ;;
    *) printf '%s\n' "$1" ;;
    esac
}

# The path that a name has from every folder.
absolute() { # NAME
    case $1 in
    /*) printf '%s\n' "$1" ;;
    *) printf '%s\n' "$PWD/$1" ;;
    esac
}

# ---- What is built with rt

# A crate and those that it stands on, each after those, level by level: a line each, with its name, a tab and its line of crates.txt.
crates_of() { # NAME
    awk -v wanted="$1" '
        function visit(n,    part, k, i) {
            if (n in level) return
            level[n] = 0
            k = split(deps[n], part, /[ \t,]+/)
            for (i = 1; i <= k; i++) if (part[i] in deps) {
                visit(part[i])
                if (level[part[i]] >= level[n]) level[n] = level[part[i]] + 1
            }
            print level[n] "\t" n "\t" line[n]
        }
        { sub(/[ \t]*#.*/, "") }
        NF > 0 { i = index($0 ":", ":"); split(substr($0, 1, i - 1), word, " "); deps[word[1]] = substr($0, i + 1); line[word[1]] = $0 }
        END { if (wanted in deps) visit(wanted) }' "$root/crates.txt" | sort -s -n -k 1,1 | cut -f 2-
}

# The sum over all that is built from: sources, definitions, proofs and lines of crates.txt of a crate and of those that it stands on. A file that
# is touched is the same file.
made_from() { # NAME
    (
        cd -- "$root" && crates_of "$1" || exit
        crates_of "$1" | cut -f 1 | while IFS= read -r crate; do
            find "crates/$crate/src" "crates/$crate/specs" "crates/$crate/proofs" -type f -print0 2> /dev/null
        done | LC_ALL=C sort -z | xargs -0 -r sha256sum
    ) | sha256sum
}

# Beside a file that was built stand the kit and the sum that it was made from, with its own sum.
record() { # FILE SUM
    { rt version && echo "$2 $(sha256sum < "$1")"; } > "$1.sums"
}

# Whether a file is what its record says, of what is here now. Another kit counts where one can answer.
is_made() { # NAME FILE
    local kit sums now
    [ -r "$2" ] && [ -r "$2.sums" ] || return 1
    { IFS= read -r kit && IFS= read -r sums; } < "$2.sums"
    if now=$(rt version 2> /dev/null) && [ "$now" != "$kit" ]; then return 1; fi
    [ "$sums" = "$(made_from "$1") $(sha256sum < "$2")" ]
}

# Puts what rt made where it is kept, with its record. rt ci takes programs and archives out of a crate's out.
keep() { # MADE FILE SUM
    mkdir -p -- "${2%/*}" && rm -f -- "$2.sums" && cp -- "$1" "$2.new" && mv -f -- "$2.new" "$2" && record "$2" "$3"
}

# Proves a crate and those that it stands on, each in its folder over what rt kept there, with `rt lib`, and the last with the word that builds
# it. What rt said goes to a log, and a line shows which crate it is at, of how many. Where one fails, its name is in `at_fault`.
at_fault=
prove() { # NAME LOG WORD
    local crates at=0 crate word=lib rt
    rt=$(absolute "$(type -P rt)")
    mapfile -t crates < <(crates_of "$1" | cut -f 1)
    : > "$2" || return 1
    for crate in "${crates[@]}"; do
        at=$((at + 1))
        say "$at of ${#crates[@]}: $crate"
        [ "$at" -lt "${#crates[@]}" ] || word=$3
        echo "== $crate: rt $word" >> "$2"
        at_fault=$crate
        (trap - PIPE XFSZ && cd -- "$root/crates/$crate" && exec "$rt" "$word") < /dev/null >> "$2" 2>&1 || return 1
    done
    at_fault=
}

# Whether a program writes what its file stdout has, run as rt ci runs it: in its folder data, with the lines of its file args.
writes_its_lines() { # NAME PROGRAM LOG
    local folder=$root/crates/$1 input=/dev/null wanted=/dev/null words=()
    [ ! -f "$folder/stdin" ] || input=$folder/stdin
    [ ! -f "$folder/stdout" ] || wanted=$folder/stdout
    [ ! -f "$folder/args" ] || mapfile -t words < "$folder/args"
    echo "== $1: what it writes, and its file stdout" >> "$3"
    (
        trap - PIPE XFSZ
        set -o pipefail
        cd -- "$folder" && { [ ! -d data ] || cd data; } || exit
        "$2" "${words[@]}" < "$input" 2>> "$3" | diff - "$wanted" >> "$3"
    )
}

# Has rt make FILE of the crate NAME with this word, which leaves it as MADE in the crate's folder, unless it is made already. Where that fails it
# says why in a line, and returns 1.
build() { # NAME FILE WORD MADE
    local name=${2#"$root/"}
    is_made "$1" "$2" && return
    if ! type -P rt > /dev/null; then
        say "there is no \`rt\` on the PATH, and the Rattle kit is needed to prove and build $name"
        return 1
    fi
    if ! rt version > /dev/null 2>&1; then
        say "\`rt\` does not run, and the Rattle kit is needed to prove and build $name"
        return 1
    fi
    if [ -z "$(crates_of "$1")" ]; then
        say "$name is built from the crate $1, and crates.txt has no such crate"
        return 1
    fi
    if ! { mkdir -p -- "$root/target" && : >> "$root/target/lock"; } 2> /dev/null; then
        say "$name is not there for this user as it would be built now, and $root/target cannot be written to build it"
        return 1
    fi
    # one build at a time; rt holds the lock too, and ends what it started when it ends
    (
        if ! flock -n 9; then
            say "another build is going on, and this one waits for it"
            flock 9
        fi
        is_made "$1" "$2" || build_alone "$@"
    ) 9>> "$root/target/lock"
}
build_alone() { # NAME FILE WORD MADE
    local from name=${2#"$root/"} log=$root/target/$1.log made=$root/crates/$1/$4
    from=$(made_from "$1")
    rm -f -- "$2" "$2.sums"
    say "proving and building $name first; from nothing this takes some minutes"
    if ! prove "$1" "$log" "$3" || [ ! -f "$made" ]; then
        say "$name is not built${at_fault:+: rt failed on $at_fault}; $(shown "$log") has what rt said"
        return 1
    fi
    if [ "$3" = run ] && ! writes_its_lines "$1" "$made" "$log"; then
        say "$name is not built: it does not write what crates/$1/stdout has; $(shown "$log") has how they differ"
        return 1
    fi
    if [ "$(made_from "$1")" != "$from" ]; then
        say "a file changed while $name was built; run this again"
        return 1
    fi
    keep "$made" "$2" "$from" || {
        say "$name cannot be written"
        return 1
    }
}

# The two that are built: the list program, and the library for C and Rust.
list_program=$root/target/bin/list
build_list() { build list "$list_program" run out/list; }
build_library() { build vobsub_c_c "$root/target/staticlib/libvobsub_c.a" lib out/libvobsub_c_c.a; }

# ---- What is run over the library, and beside the original

need_library() { "$root/library" || exit 2; }

need_cc() { type -P cc > /dev/null || fail 2 "there is no \`cc\` on the PATH, and the C program is built with it"; }

# The original, from VOBSUB_ORIGINAL or from beside the repository, and what builds it.
need_original() {
    VOBSUB_ORIGINAL=$(absolute "${VOBSUB_ORIGINAL:-$(dirname -- "$root")/shared/docs/src}")
    [ -r "$VOBSUB_ORIGINAL/src/vobsub.rs" ] ||
        fail 2 "the original is missing: there is no $(shown "$VOBSUB_ORIGINAL")/src/vobsub.rs to be read (VOBSUB_ORIGINAL names another folder)"
    type -P cargo > /dev/null || fail 2 "there is no \`cargo\` on the PATH, and the original is built with it"
    export VOBSUB_ORIGINAL
}

# Real titles, from VOBSUB_TITLES or from beside the repository: one at least, of those whose names start with these letters.
need_titles() { # [LETTERS]
    local title found= name
    VOBSUB_TITLES=$(absolute "${VOBSUB_TITLES:-$(dirname -- "$root")/shared/titles}")
    name=$(shown "$VOBSUB_TITLES")
    [ -d "$VOBSUB_TITLES" ] || fail 2 "the titles are missing: there is no folder $name (VOBSUB_TITLES names another)"
    for title in "$VOBSUB_TITLES"/*/; do
        [ -e "${title}title.idx" ] || continue
        [ -f "${title}title.sub" ] || fail 2 "a title is not whole: there is no $(shown "$title")title.sub (VOBSUB_TITLES names another folder of titles)"
        case $(basename -- "$title") in "${1-}"*) found=1 ;; esac
    done
    [ -n "$found" ] || fail 2 "there is no title in $name: no folder ${1:+with a name from $1 on }has a title.idx (VOBSUB_TITLES names another folder)"
    export VOBSUB_TITLES
}

# Builds a program of oracle/.
build_oracle() { # PROFILE NAME [WORDS ..]
    export CARGO_TARGET_DIR=$root/target/oracle
    (cd -- "$root/oracle" && cargo build --quiet --offline --profile "$1" --bin "$2" "${@:3}") || exit 2
}
