# shellcheck shell=bash
# What the scripts share; each sources this file. A script's help is its header comment, which stands in its second line and those after it.

# Prints the help and ends, where the first word asks for it.
answer_help() { # WORD...
    case ${1-} in
    -h | --help)
        awk 'NR > 1 { if (!sub(/^# ?/, "")) exit; print }' "$0"
        exit
        ;;
    esac
}

# Ends with status 2 and a line that says what was wrong with the words that were given.
refuse() { # TEXT
    echo "$0: $1 ($0 --help says what it takes)" >&2
    exit 2
}

take_no_words() { # WORD...
    [ $# -eq 0 ] || refuse "unknown word '$1'"
}

# Ends with status 1 where a command is missing, and says where it comes from.
need() { # COMMAND SOURCE
    if ! command -v "$1" >/dev/null; then
        echo "$0: there is no $1 on this machine ($2)" >&2
        exit 1
    fi
}

# Prints a sum for each file of the crates; the folders out/ have what rt made.
sums_of_sources() {
    find crates.txt crates -path 'crates/*/out' -prune -o -type f -exec sha256sum {} + | sort
}

# The sum of the sources with the libraries and programs that rt ci made of them. It leaves these in crates/NAME/out without a stamp, so that
# rt would prove them once more for any other command.
sum_of_gate() {
    { rt version && sums_of_sources && find crates/*/out -maxdepth 3 -type f \( -name format -o -perm -u+x \) -exec sha256sum {} + | sort; } | sha256sum
}

# Notes that the gate has proved what stands here; where rt has put back what earlier checks kept, it stays with rt to prove it.
note_gate() {
    if compgen -G 'crates/*/out/rlib/stamp' >/dev/null; then rm -f target/ci.sum; else sum_of_gate >target/ci.sum; fi
}

# Whether what stands here is what the gate has proved and made.
is_of_gate() {
    [ -f target/ci.sum ] && [ "$(sum_of_gate)" = "$(cat target/ci.sum)" ]
}

# Proves and builds a program as crates/NAME/out/NAME, where that is not done yet. rt has no command that builds a program and does not run
# it, so it is run on an empty input. What rt says goes to the error output.
build_program() { # NAME
    is_of_gate || (cd "crates/$1" && rt run </dev/null >/dev/null)
}

# Says that the next part begins, by its number and its name. A script sets parts to how many it has.
part=0
parts=0
begin() { # NAME
    part=$((part + 1))
    echo "-- $part of $parts: $1"
}

# Exports ASTC_ORIGINAL as the full path of the folder that has the original's source; where there is none, says so and fails.
find_original() {
    local folder=${ASTC_ORIGINAL:-../shared/docs/src}
    if [ ! -f "$folder/astc.rs" ]; then
        echo "the original's source (astc.rs and what it uses) is not in $folder; ASTC_ORIGINAL names the folder that has it"
        return 1
    fi
    ASTC_ORIGINAL=$(cd "$folder" && pwd)
    export ASTC_ORIGINAL
}

# Prints the version that include/astc.h has, MAJOR.MINOR.PATCH.
header_version() {
    awk '$2 ~ /^ASTC_VERSION_(MAJOR|MINOR|PATCH)$/ { version = version point $3; point = "." } END { print version }' include/astc.h
}
