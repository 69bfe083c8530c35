# Sourced by pit-run and pit-trace, which set `name` and `root`: builds the program of that name on first use, runs it
# on standard input and makes an exit status of the line `R` that it begins with.
set -u
export LC_ALL=C

crate=${name/-/_}
program=target/bin/$crate
speaker=$name
. "$root/tools/build.sh"

usage() {
    local lines
    if [ "$name" = pit-trace ]; then
        lines='  T EVENT CLOCKS PINS=.. REGS=.. PACK=.. TACK=..
                   after each event but the end: its number, from 0; the clocks passed; the
                   levels of pins 0 to 27; what registers 0 to 31 would read; what a port and
                   a timer acknowledge would give, or -- where the part would not respond'
    else
        lines='  A BYTE           what a read or an acknowledge gave, in hexadecimal, or -- where the
                   part did not respond'
    fi
    cat <<END
usage: ./$name < LIST

Plays an event list, at most 16,384 bytes, on a fresh MC68230. It prints

  R REFUSAL PLACE  0 0 where the list is accepted; else why it is refused, 1 to 7, and at which
                   bit, and nothing more
$lines
  G CLOCK          the timer came to zero, the gate opened, when that many clocks had passed
  C CLOCKS         all clocks of the list

Exit status: 0 accepted; 1 refused; 2 standard input can't be read, output can't be written, or
the program can't be built. docs/BENCH.md tells how to make a list and how to read the lines.
END
}

# Sets `under` to what an x86-64 program runs under: nothing, or on another machine an emulator and a C library, the
# kit's own, as rt takes them, or Debian's.
pick_emulator() {
    local machine folders kit tools libraries=/usr/x86_64-linux-gnu/lib missing=()
    under=()
    machine=$(uname -m)
    [ "$machine" != x86_64 ] || return 0
    mapfile -t folders < <(kits "$program")
    for kit in "${folders[@]}"; do
        tools=$kit/on/$machine/toolchain
        if [ -x "$tools/bin/qemu-x86_64" ]; then
            under=("$tools/bin/qemu-x86_64" "$tools/lib/ld-linux-x86-64.so.2" --library-path "$tools/lib")
            return
        fi
    done
    command -v qemu-x86_64 >/dev/null || missing+=(qemu-user)
    [ -e "$libraries/ld-linux-x86-64.so.2" ] || missing+=(libc6-amd64-cross)
    [ ${#missing[@]} = 0 ] || give_up "the program is x86-64 code, this machine is $machine, and no Rattle kit with" \
        "an emulator is found; with these Debian packages it can be played: apt-get install ${missing[*]}"
    under=(qemu-x86_64 "$libraries/ld-linux-x86-64.so.2" --library-path "$libraries")
}

# Passes the program's lines on and answers by the first one: 0, 1, or 2 where there is none, since the program
# has then said why on standard error. A reader that has gone away is no fault; any other failed write is.
pass() {
    local first said
    IFS= read -r first || return 2
    { said=$({ printf '%s\n' "$first" && cat; } 2>&1 >&3); } 3>&1
    case $said in
    '' | *'Broken pipe') ;;
    *) give_up "${said##*: }" ;;
    esac
    case $first in
    'R 0 '*) return 0 ;;
    'R '*) return 1 ;;
    *) return 2 ;;
    esac
}

case $#,${1-} in
1,-h | 1,--help)
    usage
    exit 0
    ;;
0,) ;;
1,[!-]*) give_up "a list comes on standard input: ./$name < $(printf %q "$1")" ;;
*)
    usage >&2
    exit 2
    ;;
esac
if [ -t 0 ]; then
    usage >&2
    exit 2
fi
{ : 3<&0; } 2>/dev/null || give_up "standard input is closed"
{ : 3>&1; } 2>/dev/null || give_up "standard output is closed"
provide "$program" "$crate"
pick_emulator
"${under[@]}" "$root/$program" | pass
ended=("${PIPESTATUS[@]}")
# A reader that has gone away is no fault to the program either.
[ "${ended[0]}" = 0 ] || give_up "the program ended with status ${ended[0]}"
exit "${ended[1]}"
