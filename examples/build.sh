#!/bin/sh
# Builds the two boxes, the radio and what conducts and judges a rehearsal: build.sh LIB FOLDER [--broken | --late | --stale]
# LIB is the folder that ./build-lib fills. With --broken the controller forgets its numbers, with --late it keeps them too late; with --stale
# the console keeps an OK through a power cut.
set -eu
if [ $# -lt 2 ]; then
    echo "usage: build.sh LIB FOLDER [--broken | --late | --stale]" >&2
    exit 2
fi
lib=$1
to=$2
here=$(dirname "$0")
mistake=
case ${3:-} in
--broken) mistake=-DFORGETFUL ;;
--late) mistake=-DLATE ;;
--stale) mistake=-DSTALE ;;
esac
cc=${CC:-cc}
flags="-std=c11 -D_GNU_SOURCE -O2 -Wall -Wextra -Werror -I$lib"
mkdir -p "$to"
build() {
    program=$1
    shift
    "$cc" $flags -o "$to/$program" "$here/$program.c" "$@"
}
build judge
build radio "$here/box.c"
build conduct "$here/box.c" "$lib/libnooseless.a"
build console_box $mistake "$here/box.c" "$lib/console_loop.c" "$lib/libnooseless.a"
build controller_box $mistake "$here/box.c" "$lib/controller_loop.c" "$lib/libnooseless.a"
