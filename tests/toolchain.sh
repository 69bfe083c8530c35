# Sourced by the scripts of tests/ and bench/, from the repository's root: compilers, where to build, how to
# run. The library is x86-64 code. On another machine everything linked with it is built with Debian's cross
# compiler, statically, and run by qemu; what uses the model alone is built for the machine itself.

WARNINGS="-std=c99 -Wall -Wextra -Werror"
BUILD=target/tests
LIBRARY=${PIT_LIBRARY:-target/staticlib/libpit_c.a} # `standin`: the model's own stand-in, tests/standin.c
GENERATOR=(tests/generate.c tests/model/model.c)    # what every program with generated lists is made of

root=$PWD
speaker=library
. tools/build.sh

# need PROGRAM PACKAGE...: installs Debian packages where the program is missing, and says so.
need() {
    local program=$1 log
    shift
    command -v "$program" >/dev/null && return
    echo "installing, for $program: $*" >&2
    export DEBIAN_FRONTEND=noninteractive
    if ! log=$(apt-get -qq update 2>&1 && apt-get -qq install -y --no-install-recommends "$@" 2>&1); then
        printf '%s\n' "$log" "cannot install: $*" >&2
        exit 2
    fi
}

# What compiles and plays the library on a machine that it is not for.
need_cross() {
    [ "$(uname -m)" != x86_64 ] || return 0
    need x86_64-linux-gnu-gcc gcc-x86-64-linux-gnu libc6-dev-amd64-cross
    need qemu-x86_64 qemu-user
}

# All that the tests install, for tests at once: two can't install at a time.
need_all() {
    need gcc gcc libc6-dev
    need g++ g++
    need_cross
}

# For programs that use the model alone.
pick_native() {
    need gcc gcc libc6-dev
    CC=gcc
    LINK=
    RUN=
}

# Builds the library, which proves it, unless a passed build of the same sources left it.
library() {
    [ -n "${PIT_LIBRARY-}" ] || provide "$LIBRARY" pit_c
}

# For programs that are linked with the library.
pick_for_library() {
    library
    if [ "$LIBRARY" = standin ]; then
        LIBRARY=tests/standin.c
        pick_native
        return
    fi
    if [ "$(uname -m)" = x86_64 ]; then
        pick_native
        return
    fi
    need_cross
    CC=x86_64-linux-gnu-gcc
    LINK=-static
    RUN=qemu-x86_64
}

# compile OUTPUT OPTIONS SOURCE...: one program or, with -c among the options, one object.
compile() {
    local output=$1 options=$2
    shift 2
    mkdir -p "$(dirname "$output")"
    # shellcheck disable=SC2086
    $CC $WARNINGS $options -Iinclude -Itests -o "$output" "$@"
}
