# For `source`, with $top the folder of the repository: whether prebuilt/ is of this checkout, its program, and its
# libraries for programs in C.
#
# prebuilt/sums, and out/sums beside a program that was built here, are lines as sha256sum checks them, one for each
# file that the program is made of, between lines that begin with #: of the kit, of the machine that it is built for,
# of what was made, and of the number of files. prebuilt/library-sums is the same of the libraries, with a line of each.

# The libraries as host/libraries makes them, and what of host/ they are made of, beside the crates.
library_files='libtal_c.a libtal_c.so libtalc_c.a libtalc_c.so'
library_parts='host/exports host/libraries host/talc_heap.c host/talc_heap.h'

# What one of the lines with # says.
said_in() {
    sed -n "s/^# $2: //p" "$1" | head -n 1
}

sum_of_file() {
    sha256sum <"$1" | cut -d ' ' -f 1
}

# What this machine is, as the line `machine` begins.
this_machine() {
    uname -sm
}

# Says in which way the files of the checkout are not those of a file of sums; nothing where they are.
fault_of_sums() {
    local sums=$1 wrong names listed
    if [ "$(tail -n 1 "$sums")" != "# end: $(grep -c '^[0-9a-f]' "$sums") files" ]; then
        echo "$(realpath --relative-to="$top" "$sums") is cut"
        return
    fi
    if ! wrong=$({ cd "$top" && LC_ALL=C sha256sum --check --quiet --strict; } <"$sums" 2>/dev/null); then
        wrong=${wrong%%$'\n'*}
        wrong=${wrong%%: FAILED*}
        [ -n "$wrong" ] && echo "the sum of $wrong differs" || echo "its sums cannot be compared with the files here"
        return
    fi
    listed=$(sed -n 's/^[0-9a-f]\{64\}  //p' "$sums")
    names=$(sed -n 's|^crates/\([^/]*\)/.*|\1|p' <<<"$listed" | uniq)
    wrong=$(LC_ALL=C comm -13 <(LC_ALL=C sort <<<"$listed") <(files_of "$top" $names) | head -n 1)
    [ -z "$wrong" ] || echo "$wrong is not among its files"
}

# The files in a checkout or copy that these crates are made of, in order.
files_of() {
    local folder=$1 name
    shift
    (cd "$folder" && {
        echo HANDLES
        echo crates.txt
        for name; do
            echo "crates/$name/src" "crates/$name/specs" "crates/$name/proofs"
        done | xargs sh -c 'find "$@" -type f 2>/dev/null' find
    } | LC_ALL=C sort)
}

# Says why the program of prebuilt/ is not to be run here; nothing where it may be.
fault_of_prebuilt() {
    local sums=$top/prebuilt/sums
    if [ ! -f "$sums" ] || [ ! -f "$top/prebuilt/talc.gz" ]; then
        echo "it is not there, or not whole"
        return
    fi
    case "$(said_in "$sums" machine)" in
        "$(this_machine), "*) fault_of_sums "$sums" ;;
        *) echo "it is for $(said_in "$sums" machine), and this is $(this_machine)" ;;
    esac
}

# Says why the libraries of prebuilt/ are not to be used here; nothing where they may be.
fault_of_libraries() {
    local sums=$top/prebuilt/library-sums name
    for name in library-sums $(printf '%s.gz ' $library_files); do
        if [ ! -f "$top/prebuilt/$name" ]; then
            echo "prebuilt/$name is not there"
            return
        fi
    done
    case "$(said_in "$sums" machine)" in
        "$(this_machine), "*) fault_of_sums "$sums" ;;
        *) echo "they are for $(said_in "$sums" machine), and this is $(this_machine)" ;;
    esac
}

# Unpacks the libraries of prebuilt/ to a folder, and says what is wrong with them; nothing where they are those that
# the sums name.
unpacked_libraries() {
    local name
    for name in $library_files; do
        if ! gzip -dc "$top/prebuilt/$name.gz" >"$1/$name" 2>/dev/null ||
            [ "$(sum_of_file "$1/$name")" != "$(said_in "$top/prebuilt/library-sums" "made $name")" ]; then
            rm -f "$1/$name"
            echo "prebuilt/$name.gz is cut, or another library than prebuilt/library-sums names"
            return
        fi
    done
}

# Unpacks the program of prebuilt/ to a file, and says what is wrong with it; nothing where it is the one that the sums
# name, and starts here (with no words it ends with 2).
unpacked() {
    if ! gzip -dc "$top/prebuilt/talc.gz" >"$1" 2>/dev/null || \
        [ "$(sum_of_file "$1")" != "$(said_in "$top/prebuilt/sums" made)" ]; then
        echo "prebuilt/talc.gz is cut, or another program than prebuilt/sums names"
        return
    fi
    chmod 755 "$1"
    "$1" </dev/null >/dev/null 2>&1
    [ $? -eq 2 ] || echo "its program does not start on this machine"
}

# Takes the program of prebuilt/ as the one that was built, and says so; or says why not, with status 1.
take_prebuilt() {
    local fault made
    [ -e "$top/prebuilt" ] || return 1
    fault=$(fault_of_prebuilt)
    if [ -z "$fault" ]; then
        made=$(mktemp "$program.XXXXXX") || return 1
        fault=$(unpacked "$made")
        if [ -z "$fault" ] && mv "$made" "$program"; then
            echo 'talc: taking the program of prebuilt/, which names the sum of each file here that it was built of;' \
                '`tools/build` proves it and builds it anew' >&2
            return 0
        fi
        rm -f "$made"
    fi
    echo "talc: prebuilt/ is not taken: $fault" >&2
    return 1
}
