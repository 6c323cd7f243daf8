# Sourced by ../cvl: proves and builds the program, and the library for C.

# Runs the kit in a crate's folder, on up to four processors. What it says is kept. Whoever ends this ends it too.
kit() {
    (cd "$tree/crates/$1" && exec rt "$2" --jobs "$jobs" < /dev/null) > "$logs/$1.log" 2>&1 &
    running=$!
    trap 'kill "$running" 2> /dev/null; exit 1' INT TERM HUP
    wait "$running"
}

# Proves a crate; of the program and of the library for C also builds them. The kit then runs the program without arguments, whose
# status is that of a wrong use.
prove() {
    [ "$1" = cvl ] || { kit "$1" lib; return; }
    rm -f "$tree/crates/cvl/out/cvl"
    kit cvl run
    [ -x "$tree/crates/cvl/out/cvl" ]
}

# The processor seconds that the proofs of crates took when the gate was timed.
seconds_of() {
    for crate in $*; do echo "$crate"; done | awk 'NR == FNR { took[$1] = $2; next } { sum += $1 in took ? took[$1] : 60 } END { print sum + 0 }' "$here/launcher/proof-seconds.tsv" -
}

# A time in words.
time_of() {
    if [ "$1" -lt 100 ]; then echo "$1 seconds"; else echo "$((($1 + 30) / 60)) minutes"; fi
}

# Proves crates, lowest first, and says how far it is. The kit lets no two checks that share a crate run side by side, so each has all
# processors.
prove_all() {
    start=$(date +%s) done=0 behind=0 whole=$(seconds_of "$@")
    for crate in "$@"; do
        prove "$crate" || { tell_failure "$crate"; return 1; }
        done=$((done + 1)) behind=$((behind + $(seconds_of "$crate"))) passed=$(($(date +%s) - start))
        [ "$done" -eq $# ] || say "proved $crate ($done of $#) after $(time_of "$passed"); some $(time_of $((passed * (whole - behind) / behind))) are left"
    done
}

tell_failure() {
    say "proving $1 failed; from $logs/$1.log:"
    grep -e ': error' -e 'error\[' -e ': no proof' "$logs/$1.log" | head -n 5 >&2
}

# What git says of this clone, which may be another user's.
git_here() {
    git -c safe.directory="$here" -C "$here" "$@" 2> /dev/null
}

# The last commit that changed the sources of program and library.
commit_of_sources() {
    sources="crates.txt $(folders_of $(crates_of cvl) $(crates_of cvl_c) | sort -u)"
    commit=$(git_here log -1 --abbrev=10 --format=%h -- $sources)
    [ -z "$(git_here status --porcelain -- $sources)" ] || commit="$commit and changes"
    echo "${commit:-unknown}"
}

# Puts made files into the folder for those made here, all at once, beside what lies there of the same sources.
keep() {
    version=$(rt version) names= kept=$made.$$
    rm -rf "$kept" && mkdir -p "$kept" && cp "$@" "$kept/" || return 1
    for file in cvl libcvl.a; do
        [ -f "$kept/$file" ] || { [ "$(said_in "$made" kit)" = "$version" ] && is_of_sources "$made" "$file" && cp "$made/$file" "$kept/"; } || continue
        names="$names $file"
    done
    {
        echo "kit $version"
        echo "commit $(commit_of_sources)"
        for file in $names; do echo "$file $(sum_of_sources "$file" "$version")"; done
    } > "$kept/SOURCES"
    (cd "$kept" && sha256sum $names > SHA256SUMS && chmod 644 * && { [ ! -f cvl ] || chmod 755 cvl; }) && header_version > "$kept/VERSION" || return 1
    rm -rf "$made" && mv "$kept" "$made"
}

# Waits until no other use builds here, and says so where one does. Where there is no flock, two builds share the kit's own locks.
lock() {
    mkdir -p "$here/out" && exec 9> "$here/out/building" || return 1
    command -v flock > /dev/null || return 0
    flock -n 9 || { say "another use is building; this one waits for it"; flock 9; }
}

needs_kit() {
    command -v rt > /dev/null && return
    say "not built: there is no command rt; put the bin folder of Rattle's kit on the PATH"
    return 1
}

# Proves and builds in a tree what is named: cvl, or cvl and libcvl.a.
build_in() {
    tree=$1 logs=$1/out/build jobs=$(nproc 2> /dev/null) || jobs=1
    shift
    [ "$jobs" -le 4 ] || jobs=4
    rm -rf "$logs" && mkdir -p "$logs" || return 1
    crates=$({ for file in "$@"; do lines_of "$(crate_of "$file")"; done; } | awk '!seen[$0]++' | sed 's/[ :].*//')
    say "$(echo $crates | wc -w) crates are proved and built, in some $(time_of $(($(seconds_of $crates) * 3 / 2 / jobs))) from nothing on $jobs processors with no other work, and up to"
    say "three times that on slow ones; it takes 3.5 GB of disk and 4 GB of memory; what the prover says goes to $logs"
    prove_all $crates || return 1
    case " $* " in *' libcvl.a '*) "$here/embed/archive" "$tree/crates/cvl_c/out/libcvl_c.a" "$tree/crates/cvl_c/out/libcvl.a" || return 1 ;; esac
}

# Where in a tree a file is made.
place_of() {
    echo "$tree/crates/$(crate_of "$1")/out/$1"
}

# Whether what is named was made here of these sources.
has_made() {
    for file in "$@"; do
        case $file in cvl) has_program "$made" ;; *) has_library "$made" ;; esac || return 1
    done
}

# Proves and builds what is named here, and keeps it, unless another use has done so meanwhile.
build_here() {
    needs_kit && lock || return 1
    has_made "$@" && return
    build_in "$here" "$@" || { say "not built"; return 1; }
    keep $(for file in "$@"; do place_of "$file"; done) && say "built in $(time_of $(($(date +%s) - start))); it is built again only where its sources change"
}

# Proves and builds program and library from nothing, in a folder of its own, and compares them with those that come with the repository.
prove_from_nothing() {
    needs_kit && lock || return 1
    apart=$(mktemp -d "${TMPDIR:-/var/tmp}/cvl-prove.XXXXXX") || return 1
    trap 'rm -rf "$apart"' EXIT
    { lines_of cvl; lines_of cvl_c; } | awk '!seen[$0]++' > "$apart/crates.txt" && cp "$here/HANDLES" "$apart/" || return 1
    (cd "$here" && for folder in $(folders_of $(sed 's/[ :].*//' "$apart/crates.txt")); do mkdir -p "$apart/${folder%/*}" && cp -R "$folder" "$apart/$folder" || exit 1; done) || return 1
    build_in "$apart" cvl libcvl.a || { mkdir -p "$here/out" && cp -R "$logs" "$here/out/"; say "not proved; what was said lies in $here/out/build"; return 1; }
    keep "$(place_of cvl)" "$(place_of libcvl.a)" && compare "$made"
}

# Compares files in a folder, made of the sources that lie here, with those that come with the repository, byte for byte.
compare() {
    status=0
    for file in cvl libcvl.a; do
        name=${prebuilt#"$here"/}/$file
        if cmp -s "$1/$file" "$prebuilt/$file" && is_of_sources "$prebuilt" "$file" && is_whole "$prebuilt" "$file" && [ "$(cat "$prebuilt/VERSION")" = "$(header_version)" ]; then
            say "equal: $name is what these sources make"
        else
            say "not equal: $name is not what these sources make: its sum is $(sum_of "$prebuilt/$file"), theirs is $(sum_of "$1/$file")"
            status=1
        fi
    done
    [ "$status" -eq 0 ] || say "./cvl --prebuild puts there what these sources make"
    return "$status"
}

# Puts what these sources make into the folder that comes with the repository.
prebuild() {
    has_made cvl libcvl.a || build_here cvl libcvl.a || return 1
    [ ! -f "$here/out/proof-seconds.tsv" ] || cp "$here/out/proof-seconds.tsv" "$here/launcher/" || return 1
    mkdir -p "$prebuilt" && cp "$made"/* "$prebuilt/" && compare "$made"
}
