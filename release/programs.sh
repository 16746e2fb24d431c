# What ./omf, ./doslink, ./doslib, ./install, release/make, tools/package and the gate know of this repository's
# programs: which sources each is made of, where the released one stands and where the one that was built. Read by any
# POSIX shell that knows `local` (bash, dash, busybox) with the repository's folder in `top`.
# shellcheck shell=dash

unpacked=$top/out/released

# The names of other linkers by which doslink takes what is written for them. It is installed by them in a folder of
# their own, so that no other program is hidden, as link of coreutils.
linkers='link tlink wlink'

# Where programs are unpacked if the repository's folder can't be written to: a folder that this user alone may change.
set_aside=${TMPDIR:-/tmp}/omf-released-$(id -u)

# The programs that crates.txt has: programs
programs() {
    local each
    for each in omf doslink doslib; do
        ! grep -q "^$each:" "$top/crates.txt" || echo "$each"
    done
}

# The crates that a program stands on, and itself: crates_of PROGRAM
crates_of() {
    awk -F: -v program="$1" '
        !/^#/ && NF > 1 { uses[$1] = $2 }
        END {
            found[count = 1] = program
            for (at = 1; at <= count; at++) {
                print found[at]
                split(uses[found[at]], words, " ")
                for (each in words)
                    if ((words[each] in uses) && !met[words[each]]++)
                        found[++count] = words[each]
            }
        }' "$top/crates.txt"
}

# The sum of all that a program is made of, its crates' lines of crates.txt and their files by paths: sum_of PROGRAM
sum_of() {
    (
        cd "$top" || exit 3
        LC_ALL=C # each place sorts as the others do
        export LC_ALL
        crates=$(crates_of "$1" | sort)
        {
            for crate in $crates; do grep "^$crate:" crates.txt; done
            for crate in $crates; do
                [ ! -d "crates/$crate" ] || find "crates/$crate" -path '*/out' -prune -o -type f \( -name '*.rt' -o -name '*.antt' \) -print0
            done | sort -z | xargs -0 sha256sum
        } | sha256sum | cut -d ' ' -f 1
    )
}

# What release/RELEASE says of a program, sources or sha256; or what another file of release/ does, as ports/PORTS, which
# has the sum of each port by its name: said_of PROGRAM WORD [FILE]
said_of() {
    sed -n "s/^$1 $2 //p" "$top/release/${3-RELEASE}" 2>/dev/null
}

# The first source that was touched after a file, or with WORDS also the first folder of them; it fails where find
# can't tell, as that of busybox: touched FILE [WORDS]
touched() {
    local after="$1"
    shift
    find "$top/crates.txt" "$top/crates" -path '*/out' -prune \
        -o \( -name crates.txt -o -name '*.rt' -o -name '*.antt' "$@" \) -cnewer "$after" -print -quit 2>/dev/null
}

# All that `touched FILE -o -type d` looks at, for a run that reads no folder: watched
watched() {
    (
        cd "$top" && find crates.txt crates -path '*/out' -prune \
            -o \( -name crates.txt -o -name '*.rt' -o -name '*.antt' -o -type d \) -print0
    )
}

# Whether a program stands there that was seen to be made of the sources, of which none was touched, added or taken
# away since; each run waits for this. Where find can't take its paths from a file it reads the folders: is_seen PROGRAM
is_seen() {
    local seen="$1" found
    [ -x "$1" ] && [ -f "$1.watched" ] && [ -f "$1.sources" ] && [ ! "$1" -nt "$1.sources" ] || return
    case $seen in
        /*) ;;
        *) seen=$PWD/$seen ;;
    esac
    found=$(
        cd "$top" &&
            exec find -files0-from "$seen.watched" -maxdepth 0 -cnewer "$seen.sources" -print -quit 2>/dev/null
    ) || found=$(touched "$1.sources" -o -type d) || return
    [ -z "$found" ]
}

# Whether a folder may be written to, which is made where it isn't there: is_own FOLDER
is_own() {
    mkdir -p -m 700 "$1" 2>/dev/null && [ -O "$1" ] && [ -w "$1" ] && [ ! -L "$1" ]
}

# Has `unpacked` name a folder that can be written to: the one set aside, else a new one: take_other_folder PROGRAM
take_other_folder() {
    unpacked=$set_aside
    is_own "$unpacked" || unpacked=$(mktemp -d) || return
    echo "$1: $top can't be written to, so the program runs from $unpacked" >&2
}

# Writes what a packed file holds, by the first of these that is here: unpacked_bytes FILE
unpacked_bytes() {
    if command -v xz >/dev/null; then
        xz -dc "$1"
    elif command -v python3 >/dev/null; then
        python3 -c 'import lzma, shutil, sys; shutil.copyfileobj(lzma.open(sys.argv[1]), sys.stdout.buffer)' "$1"
    elif command -v busybox >/dev/null; then
        busybox xz -dc "$1"
    else
        return 127
    fi
}

# Unpacks a program from a file of release/, and says why where that can't be: unpack PROGRAM FILE SUM
unpack() {
    local new status
    mkdir -p "$unpacked" 2>/dev/null && [ -w "$unpacked" ] || take_other_folder "$1" || {
        echo "$1: there is no folder to unpack the program in" >&2
        return 1
    }
    new=$unpacked/$1.$$.new # of this run alone, since another may unpack the same at this time
    unpacked_bytes "$top/release/$2" >"$new" 2>/dev/null
    status=$?
    if [ $status -eq 127 ]; then
        echo "$1: nothing here unpacks release/$2: install xz (Debian's package xz-utils), or python3" >&2
    elif [ "$(sha256sum <"$new" | cut -d ' ' -f 1)" != "$3" ]; then
        echo "$1: release/$2 is damaged: it doesn't have the sum that was noted of it" >&2
    else
        chmod 755 "$new" && mv -f "$new" "$unpacked/$1"
        return
    fi
    rm -f "$new"
    return 1
}

# Whether release/ports has a program for a port, of sources with this sum: has_port PROGRAM PORT SUM
has_port() {
    [ "$(said_of "$1" sources ports/PORTS)" = "$3" ] && [ -n "$(said_of "$1" "$2" ports/PORTS)" ]
}

# Has the program for this system and processor stand where the released one was unpacked, if it is of sources with this
# sum: take_port PROGRAM SUM
take_port() {
    local port
    case $(uname -s) in
        Darwin) port=macos ;;
        *) port=linux-$(uname -m) ;;
    esac
    has_port "$1" "$port" "$2" && unpack "$1" "ports/$1-$port.xz" "$(said_of "$1" "$port" ports/PORTS)"
}

# Unpacks the released program if it is of sources with this sum, and says so. Where it doesn't run here, since the C
# library is older, or the processor or the system another, the port is taken, which is made of the same module; on
# Linux it is a static program: take_released PROGRAM SUM
take_released() {
    [ "$(said_of "$1" sources)" = "$2" ] && unpack "$1" "$1.xz" "$(said_of "$1" sha256)" || return
    if "$unpacked/$1" --version >/dev/null 2>&1; then
        echo "$1: this is the released program, which was built of these very sources and proved" >&2
    elif take_port "$1" "$2"; then
        echo "$1: this is the port for this system, made of the module of the released program (docs/PORTS.md)," \
            "which doesn't run here" >&2
    elif ! take_older_port "$1"; then
        echo "$1: the released program doesn't run here, and release/ports gives no port of these sources for it" >&2
    fi
}

# Where the kit isn't here, which would build a program of these sources, takes the port that was released last, and
# says so each time: take_older_port PROGRAM
take_older_port() {
    ! command -v rt >/dev/null && take_port "$1" "$(said_of "$1" sources ports/PORTS)" || return
    is_older=1
    echo "$1: this is the port for this system that was released last (docs/PORTS.md), of older sources than these" >&2
}

# The same with the program that was released last, or the port where that one doesn't run here: take_older PROGRAM
take_older() {
    ! command -v rt >/dev/null || return
    if unpack "$1" "$1.xz" "$(said_of "$1" sha256)" && "$unpacked/$1" --version >/dev/null 2>&1; then
        is_older=1
        echo "$1: this is the program that was released last, of older sources than these," \
            "which the Rattle kit would build; it isn't here" >&2
    else
        take_older_port "$1"
    fi
}

# A line for every fifty functions that are proved, with how many there are in the released program, of which rt counts
# no closures (their names have the part `fn`): progress PROGRAM
progress() {
    awk -v program="$1" -v all="$(said_of "$1" functions)" '
        /^fn [^ ]+: proved$/ && $2 !~ /::fn::/ && !met[$2]++ && ++count % 50 == 0 {
            printf "%s: proved %d of %s functions\n", program, count, all ? all : "all"
            fflush()
        }' >&2
}

# Builds a program of its sources, which takes long, since each function is proved first: build PROGRAM
build() {
    echo "$1: building the program from its sources; each function is proved first (CONTRIBUTING.md says how long that takes)" >&2
    command -v rt >/dev/null || {
        echo "$1: the Rattle kit isn't here (its command rt), which proves and compiles the sources" >&2
        return 1
    }
    log=$(mktemp)
    # help ends with status 0, so any other status is a build that failed
    {
        (cd "$top/crates/$1" && rt run --jobs 2 -- --help 2>&1 </dev/null)
        echo $? >"$log.status"
    } | tee "$log" | progress "$1"
    if [ "$(cat "$log.status")" != 0 ] || [ ! -x "$top/crates/$1/out/$1" ]; then
        cat "$log" >&2
        rm -f "$log" "$log.status"
        echo "$1: the program couldn't be built" >&2
        return 1
    fi
    rm -f "$log" "$log.status"
}

# Whether rt made the program after each source of it was written: is_newer PROGRAM
is_newer() {
    local found
    [ -x "$top/crates/$1/out/$1" ] && found=$(touched "$top/crates/$1/out/$1") && [ -z "$found" ]
}

# Notes of a program that it is of sources with this sum, as they stood when a file was written:
# note_sources PROGRAM SUM FILE
note_sources() {
    watched >"$1.watched" && echo "$2" >"$1.sources" && touch -r "$3" "$1.sources"
}

# Has `program` name the one to run, which is unpacked or built where it has to be: choose PROGRAM
choose() {
    local name="$1" begun now status
    set -- "$top/crates/$name/out/$name"
    [ -n "${OMF_BUILD-}" ] || set -- "$@" "$unpacked/$name"
    [ -n "${OMF_BUILD-}" ] || [ -w "$top" ] || ! is_own "$set_aside" || set -- "$@" "$set_aside/$name"
    for program in "$@"; do
        is_seen "$program" && return
    done
    begun=$(mktemp)
    is_older='' # of older sources, so that the next run looks again
    now=$(sum_of "$name")
    make_or_find "$name" "$now" "$@" && { [ -n "$is_older" ] || note_sources "$program" "$now" "$begun"; }
    status=$?
    rm -f "$begun"
    return $status
}

# Has `program` name one that is made of the sources with this sum, of those that were made before or a new one:
# make_or_find PROGRAM SUM MADE
make_or_find() {
    local name="$1" now="$2"
    shift 2
    for program in "$@"; do
        [ -x "$program" ] && [ "$(cat "$program.sources" 2>/dev/null)" = "$now" ] && return
    done
    if [ -z "${OMF_BUILD-}" ] && ! is_newer "$name" && { take_released "$name" "$now" || take_older "$name"; }; then
        program=$unpacked/$name
        return
    fi
    program=$top/crates/$name/out/$name
    is_newer "$name" || build "$name"
}
