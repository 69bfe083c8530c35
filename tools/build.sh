# Sourced by tools/program.sh, tools/library.sh, tests/toolchain.sh and .ci/run, which set `root`, the repository's folder,
# and `speaker`, who says what is said here: has rt prove and build a program or the library, keeps it below target/, and
# knows whether the file that is there may be used.
#
# It may be used where its mark says so. target/mark/FILE is written when rt has passed, and then alone: the kit and its
# folder, the sum of each source that it rests on, as it was before rt began, and of the file. What a failed or
# interrupted build leaves, or a source that is edited, new or gone, doesn't agree with any mark; dates say nothing.
# Nor is the file itself touched by rt: it builds in the crate's out/, and what has passed is copied.

say() {
    echo "$speaker: $*" >&2
}

give_up() {
    say "$*"
    exit 2
}

mark_of() { # FILE
    echo "$root/target/mark/${1##*/}"
}

# rests_on CRATE: those of crates.txt that the crate rests on, lowest first as rt builds them, and the crate; a line each.
rests_on() {
    awk -v wanted="$1" '
        function visit(crate,    list, count, n) {
            if (!(crate in uses) || crate in seen) return
            seen[crate] = 1
            count = split(uses[crate], list, /[ \t,]+/)
            for (n = 1; n <= count; n++) visit(list[n])
            print crate
        }
        { sub(/#.*/, "") }
        split($0, part, ":") && split(part[1], word) { uses[word[1]] = part[2] }
        END { visit(wanted) }' "$root/crates.txt"
}

# sums CRATE [FILE]: a line for each source that the crate rests on, this file, which says how it is built, among them, and
# for FILE: its sum and its path. What can't be read has none. What rt builds, in crates/*/out, is no source.
sums() {
    local folders
    mapfile -t folders < <(rests_on "$1")
    (
        cd "$root" || exit
        find crates.txt tools/build.sh "${folders[@]/#/crates/}" "${@:2}" -regex 'crates/[^/]*/out' -prune -o -type f \
            \( -name '*.rt' -o -name '*.antt' -o -name stdin -o -name stdout -o -path crates.txt -o -path tools/build.sh \
            -o -path "${2-}" \) -exec sha256sum {} + | LC_ALL=C sort -k 2
    ) 2>/dev/null
}

# difference WAS NOW: which is the first file whose line differs, and how.
difference() {
    awk '
        FNR == NR { was[$2] = $1; order[++count] = $2; next }
        { now[$2] = $1 }
        !($2 in was) && fresh == "" { fresh = $2 }
        END {
            for (n = 1; n <= count; n++) {
                file = order[n]
                if (file in now && now[file] == was[file]) continue
                print file (file in now ? " has changed" : " is gone")
                exit
            }
            print fresh == "" ? "its mark is of another form" : fresh " is new"
        }' <(printf '%s\n' "$1") <(printf '%s\n' "$2")
}

# kits FILE: the folders where a Rattle kit may stand: as the caller says, that of rt, the one that built FILE, the
# usual one.
kits() {
    local rt home
    [ -z "${RATTLE_HOME-}" ] || echo "$RATTLE_HOME"
    if rt=$(command -v rt); then
        rt=$(readlink -f "$rt")
        echo "${rt%/*/*}"
    fi
    { read -r _ && read -r _ home && echo "$home"; } 2>/dev/null <"$(mark_of "$1")" || true
    echo /opt/rattle
}

# find_kit FILE: sets `home` and `kit` to the folder and the identity of the kit that would build, or to nothing.
find_kit() {
    local folders=()
    ! command -v rt >/dev/null || mapfile -t folders < <(kits "$1")
    for home in "${folders[@]}"; do
        if [ -r "$home/KIT-ID" ]; then
            IFS= read -r kit <"$home/KIT-ID" || true
            return
        fi
    done
    home='' kit=''
}

# find_why FILE CRATE: sets `why` to the reason to build FILE, or to nothing where it may be used.
find_why() {
    local mark was now built
    mark=$(mark_of "$1")
    if [ ! -f "$mark" ]; then
        why='no proved one is here yet'
        return
    fi
    {
        read -r _ built || true
        read -r _ || true
        was=$(cat)
    } <"$mark"
    now=$(sums "$2" "$1")
    find_kit "$1"
    if [ "$was" != "$now" ]; then
        why=$(difference "$was" "$now")
    elif [ -n "$kit" ] && [ "$kit" != "$built" ]; then
        why="the kit is now $kit; it was built with ${built:-another}"
    else
        why=''
    fi
}

# progress TEXT: a line, in the place of the one before where a person looks on. Without a text the place is cleared.
progress() {
    if [ -t 2 ] && [ "${TERM:-dumb}" != dumb ]; then
        printf '\r\033[K%s' "${1:+$speaker: $1}" >&2
    elif [ -n "${1-}" ]; then
        say "$1"
    fi
}

# Whether anything of what rt started is there, or rt: all of it is of one session.
is_building() {
    cat /proc/[0-9]*/stat 2>/dev/null |
        awk -v session="$builder" '{ sub(/.*\) /, "") } $4 == session && $1 != "Z" { found = 1 } END { exit !found }'
}

# Ends the whole build, then this shell by the signal that came. Ctrl-C doesn't reach rt, which has a session of its own;
# the provers that it started stand in a group of their own again, and end when rt does.
stop() {
    local tries=0
    trap '' INT TERM HUP
    kill -TERM -- "-$builder" "$builder" 2>/dev/null || true
    while is_building && [ $((tries += 1)) -lt 200 ]; do
        [ $tries != 100 ] || kill -KILL -- "-$builder" 2>/dev/null || true
        sleep 0.05
    done
    rm -rf "$scratch"
    progress
    say 'the build was stopped; the next one goes on from what is proved'
    trap - "$stopped"
    kill -s "$stopped" $BASHPID
}

# follow CRATE: shows each crate as it is proved, from what rt prints, and leaves in `said` what it says of the others.
# Of a crate that is proved the last two lines but those of axioms are `crate NAME: ..` and `logic=proved ..`; one that
# was proved before has none.
follow() {
    local line lines='' crate='' crates place
    mapfile -t crates < <(rests_on "$1")
    said=''
    while IFS= read -r line; do
        case $line in
        'crate '*': modules '*) crate=${line#crate } crate=${crate%%:*} ;;
        'logic=proved '*)
            lines=''
            for place in "${!crates[@]}"; do
                [ "${crates[place]}" != "$crate" ] ||
                    progress "$((place + 1)) of ${#crates[@]} crates proved: $crate"
            done
            ;;
        'rt: waiting for '* | 'rt: '*'; waiting for it'*) say "$line" ;;
        'fn '*': proved' | 'only='*' proved='* | 'linked target='*) ;;
        'logic /'* | 'axioms '*': '* | 'statements '*': modules '* | 'library '*': modules '*) ;;
        'rt: chose --jobs '* | 'rt: '*': begins with what '* | 'rt: nothing has changed since '* | 'rt: running out/'*) ;;
        *) lines+=$line$'\n' ;;
        esac
    done
    said=$lines
    progress
}

# start VERB CRATE: rt, in a session of its own; what it says comes on 8. `rt lib` proves what the crate rests on and the
# crate, and builds it, for every x86-64 processor (include/pit.h); `rt run` runs it too, here on the crate's own stdin.
# What would have it build in another way counts for nothing.
start() {
    local signal
    stopped='' builder=''
    for signal in INT TERM HUP; do
        # shellcheck disable=SC2064
        trap "stopped=$signal; [ -z \"\$builder\" ] || stop" $signal
    done
    exec 8< <(
        cd "$root/crates/$2" && exec </dev/null 2>&1 && unset RT_BACKEND RT_ALLOW_C || exit
        if [ "$1" = run ]; then
            exec <stdin >"$scratch/printed" || exit
        else
            set -- "$@" --cpu x86-64
        fi
        [[ ! ${RT_JOBS-} =~ ^[1-9][0-9]*$ ]] || set -- "$@" --jobs "$RT_JOBS"
        LC_ALL=C TMPDIR=$scratch exec setsid -w rt "$1" "${@:3}"
    )
    builder=$!
    [ -z "$stopped" ] || stop
}

# build_and_mark FILE CRATE: has rt do it, and keeps what it built where rt has passed, and a program wrote what the crate's
# own stdout has.
build_and_mark() {
    local sources scratch builder stopped said status=0 verb=lib
    [ ! -f "$root/crates/$2/src/main.rt" ] || verb=run
    scratch=$(mktemp -d 2>/dev/null) ||
        give_up "a build is wanted ($why), and there is no place for temporary files: ${TMPDIR:-/tmp} can't be written"
    say "building ($why); all that it rests on is proved first, which can take some minutes"
    sources=$(sums "$2")
    find_kit "$1"
    start $verb "$2"
    follow "$2" <&8
    wait "$builder" || status=$?
    exec 8<&-
    trap - INT TERM HUP
    if [ $status = 0 ] && [ $verb = run ] && ! cmp -s "$scratch/printed" "$root/crates/$2/stdout"; then
        said+="crates/$2: what the program wrote is not what its file stdout has"$'\n'
        status=1
    fi
    rm -rf "$scratch"
    if [ $status != 0 ]; then
        printf '%s' "$said" >&2
        give_up "rt $verb failed in crates/$2, with status $status; what is not proved is not used"
    fi
    keep "$1" "$2" "$sources" || give_up "what rt built in crates/$2/out can't be copied to $root/$1"
}

# keep FILE CRATE SOURCES: copies what rt built of these sources, and has passed, to FILE, and marks it.
keep() {
    local mark
    mark=$(mark_of "$1")
    {
        mkdir -p "$root/${1%/*}" "${mark%/*}" && rm -f "$mark" && cp "$root/crates/$2/out/${1##*/}" "$root/$1.new" &&
            mv "$root/$1.new" "$root/$1" && write_mark "$1" "$3" >"$mark.new" && mv "$mark.new" "$mark"
    } 2>/dev/null
}

write_mark() { # FILE SOURCES
    printf 'kit %s\nhome %s\n' "$kit" "$home" && (cd "$root" && { printf '%s\n' "$2" && sha256sum "$1"; } | LC_ALL=C sort -k 2)
}

# Whether FILE is what its mark names; where there are no sources to compare, that is all there is to know.
is_marked() { # FILE
    (cd "$root" && sha256sum "$1" 2>/dev/null) | grep -qxFf - "$(mark_of "$1")" 2>/dev/null
}

# provide FILE CRATE: leaves FILE, of target/, as rt builds it of the sources as they are; exits with 2 where that can't
# be. Two calls at once build one after the other.
provide() {
    if [ ! -f "$root/crates.txt" ] || [ ! -d "$root/crates" ]; then
        is_marked "$1" || give_up "$root has neither the sources, crates.txt and crates/, nor a $1 that was proved;" \
            "take a whole copy of the repository"
        say "without sources, crates.txt and crates/: $1 is used as it was built"
        return
    fi
    find_why "$1" "$2"
    [ -n "$why" ] || return 0
    command -v rt >/dev/null || give_up "a build is wanted ($why), and rt, of the Rattle kit, is not on PATH"
    if ! { mkdir -p "$root/target/mark" && : >>"$root/target/build.lock"; } 2>/dev/null; then
        give_up "a build is wanted ($why), and $root/target can't be written"
    fi
    exec 9>>"$root/target/build.lock"
    if ! flock -n 9; then
        say "a build is wanted ($why); another one is running here: waiting for its end"
        flock 9
    fi
    find_why "$1" "$2"
    [ -z "$why" ] || build_and_mark "$@"
    exec 9>&-
}
