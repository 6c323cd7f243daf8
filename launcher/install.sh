# Sourced by ../cvl: puts the chosen program into a folder, behind this launcher, with what it tells and the library for C.
install() {
    mkdir -p "$1/share/cvl" && cp "$program" "$1/cvl-program" && cp "$here/cvl" "$1/cvl" &&
        cp "$here/docs/ERRORS.md" "$chosen/SOURCES" "$1/share/cvl/" || { say "could not write to $1"; return 1; }
    say "installed $1/cvl, which needs $1/cvl-program and $1/share beside it"
    # Status 3: the library was left out, and why was said.
    "$here/embed/install" "$1" >&2
    case $? in 0 | 3) ;; *) return 1 ;; esac
}
