# For `source`, with $top the folder of the repository: where the program stands, its building at need, and how it is
# started. In an archive of a release, whose pages and scripts are such a folder without crates/, it is bin/talc.

program=$top/crates/talc/out/talc
[ -d "$top/crates" ] || program=$top/../../../bin/talc

# A file of code, or the list of crates, that is newer than the program; nothing where there is none.
# A newer definition or proof does not count, since it changes nothing of what the program does, nor does a newer kit.
newer_code() {
    find "$top/crates.txt" "$top"/crates/*/src \( -name '*.rt' -o -name crates.txt \) -newer "$program" -print -quit
}

# Whether the program stands and is newer than code that it may be made of.
is_built() {
    [ -x "$program" ] && { [ ! -d "$top/crates" ] || [ -z "$(newer_code)" ]; }
}

# Whether this user may write where the program stands; says so where not.
has_place() {
    mkdir -p "${program%/*}" 2>/dev/null && [ -w "${program%/*}" ] && return
    echo "talc: ${program%/*} cannot be written to by you: of a checkout that others share its owner gives the first" \
        'command, and the first after a change; `tools/install PREFIX` makes a copy that wants no folder' >&2
    return 1
}

# Takes the program of prebuilt/, which says so, or else builds it; the build says so.
get_built() {
    if [ ! -d "$top/crates" ]; then
        echo "talc: there is no program $program: the archive is not whole" >&2
        return 1
    fi
    has_place || return
    rm -f "$program"
    source "$top/tools/prebuilt.bash"
    take_prebuilt || "$top/tools/build"
}

build_at_need() {
    is_built || get_built
}

# Whether a word is a command of the usage. Where it is none, shows the usage, as the program does for `--help`.
is_command() {
    case $1 in
        '' | *[!a-z]*) ;;
        *) ! grep -q "^  $1 " "$top/tools/usage" || return 0 ;;
    esac
    cat "$top/tools/usage" >&2
    return 1
}

# Tells the C library how to hand out memory, where the caller has told it nothing: in large pages, where the system has
# them; from the system 16 MiB at a time; and no lists of small freed pieces beside those of each size, which would be
# emptied again and again. A page fault costs more than an instruction of a loop that allocates.
tune_memory() {
    export GLIBC_TUNABLES=${GLIBC_TUNABLES-glibc.malloc.hugetlb=1:glibc.malloc.top_pad=16777216:glibc.malloc.mxfast=0}
}
