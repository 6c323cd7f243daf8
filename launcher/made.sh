# Sourced by ../cvl, prove.sh, ../embed/build and test: what the program and the library for C are made from, and folders that hold
# them made. `here` is the folder of the repository.
#
# A folder of made files, `out/made` for those made here and `prebuilt/x86_64-linux` for those that come with the repository, holds
# cvl and libcvl.a, or one of them, and of what they are made:
#   SOURCES      `kit` and the kit's line, `commit` and the commit, and for each file its name and the sum of its sources
#   SHA256SUMS   the sums of the files, as sha256sum writes them
#   VERSION      the version that cvl.h has
made=$here/out/made
prebuilt=$here/prebuilt/x86_64-linux

say() {
    echo "cvl: $*" >&2
}

# The lines of crates.txt of a crate and of all that it stands on, lowest first.
lines_of() {
    awk -v top="$1" '
    { sub(/ *#.*/, "") }
    /:/ { name = $1; sub(/:.*/, "", name); names[++count] = name; lines[name] = $0 }
    END {
        wanted[top]
        for (at = count; at; at--)
            if (names[at] in wanted) {
                parts = split(lines[names[at]], part, /[: ]+/)
                for (n = 2; n <= parts; n++) if (part[n] in lines) wanted[part[n]]
            }
        for (at = 1; at <= count; at++) if (names[at] in wanted) print lines[names[at]]
    }' "$here/crates.txt"
}

# The names of those crates.
crates_of() {
    lines_of "$1" | sed 's/[ :].*//'
}

# The crate that a file is made by.
crate_of() {
    case $1 in libcvl.a) echo cvl_c ;; *) echo "$1" ;; esac
}

# The folders of the sources of crates, below the repository's.
folders_of() {
    for crate in $*; do
        for part in src specs proofs; do
            [ -d "$here/crates/$crate/$part" ] && printf '%s\n' "crates/$crate/$part"
        done
    done
}

# The sum of all that a file is made from by a kit: the kit's line, the lines of crates.txt, and the sources of the crates.
sum_of_sources() {
    crate=$(crate_of "$1")
    {
        echo "$2"
        lines_of "$crate"
        (cd "$here" && find $(folders_of $(crates_of "$crate")) -type f | LC_ALL=C sort | xargs sha256sum)
    } | sha256sum | sed 's/ .*//'
}

# What SOURCES in a folder says behind a word.
said_in() {
    sed -n "s/^$2 //p" "$1/SOURCES" 2> /dev/null
}

# Whether a folder holds a file that was made from the sources that lie here.
is_of_sources() {
    [ -f "$1/$2" ] && [ "$(said_in "$1" "$2")" = "$(sum_of_sources "$2" "$(said_in "$1" kit)")" ]
}

# The sum of a file.
sum_of() {
    sha256sum < "$1" 2> /dev/null | sed 's/ .*//'
}

# Whether a file in a folder is as it was made. Where it is not, both sums are told.
is_whole() {
    wanted=$(sed -n "s/ .$2\$//p" "$1/SHA256SUMS") found=$(sum_of "$1/$2")
    [ "$wanted" = "$found" ] && return
    say "${1#"$here"/}/$2 is not the file that was made: its sum is $found, and SHA256SUMS has $wanted"
    return 1
}

# Whether the made program runs on this system: without arguments it writes the usage line, with status 2.
runs() {
    "$1" < /dev/null > /dev/null 2>&1
    [ $? -eq 2 ] && return
    say "${1#"$here"/} does not run on this system ($(uname -sm))"
    return 1
}

# Whether a folder holds the program, fit to be run; or the library, fit to be linked.
has_program() {
    is_of_sources "$1" cvl && is_whole "$1" cvl && runs "$1/cvl"
}

has_library() {
    is_of_sources "$1" libcvl.a && is_whole "$1" libcvl.a && [ "$(cat "$1/VERSION")" = "$(header_version)" ]
}

# The version that cvl.h has.
header_version() {
    sed -n 's/^#define CVL_VERSION_M.*OR //p' "$here/embed/include/cvl.h" | paste -sd .
}
