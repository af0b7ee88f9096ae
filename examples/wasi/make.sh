#!/bin/sh
# Makes three files in the folder out beside this script: hello.wasm of hello.c, by Debian's clang, lld and wasi-libc; adapter.wasm,
# the adapter of WASI commands, cut out of the linker for components that Rust's toolchain has; and hello.component.wasm, which this
# linker makes of both, with the names of functions.
#
#     examples/wasi/make.sh [--picture]
#
# With --picture it makes why.svg there besides, by `wcwhy --dot` and Graphviz: why the component imports the host's folders.
set -e
here=$(CDPATH='' cd -P -- "$(dirname -- "$0")" && pwd -P)
case ${1-} in
    '' | --picture) ;;
    *)
        sed -n '2,/^[^#]/s/^# \{0,1\}//p' "$0"
        exit
        ;;
esac

# need FILE-OR-COMMAND PACKAGE ends the script where the first is not there
need() {
    [ -e "$1" ] || command -v "$1" >/dev/null || {
        echo "$0: there is no $1: apt-get install $2" >&2
        exit 1
    }
}

need clang clang
need wasm-ld lld
need /usr/lib/wasm32-wasi/libc.a wasi-libc
need "$(clang -print-resource-dir)/lib/wasi/libclang_rt.builtins-wasm32.a" libclang-rt-dev-wasm32
need python3 python3
mkdir -p "$here/out"
# in two steps: where there is a wasm-opt, clang -O2 runs it at the link, and makes another module
clang --target=wasm32-wasi -O2 -c "$here/hello.c" -o "$here/out/hello.o"
clang --target=wasm32-wasi -s "$here/out/hello.o" -o "$here/out/hello.wasm"
"$here/../../checks/adapters.py" --cut 'wasi:cli/run@0.2.6#run' "$here/out/adapter.wasm"
# with the names of functions, which -s takes out
clang --target=wasm32-wasi "$here/out/hello.o" -o "$here/out/named.wasm"
"$here/../../checks/adapters.py" --link "$here/out/named.wasm" "$here/out/hello.component.wasm"
[ $# -gt 0 ] || exit 0
need dot graphviz
"$here/../../wcwhy" "$here/out/hello.component.wasm" --import wasi:filesystem/preopens --dot |
    dot -Grankdir=TB -Nfontsize=13 -Nheight=0.3 -Nmargin=0.06,0.04 -Granksep=0.28 -Gnodesep=0.15 -Tsvg >"$here/out/why.svg"
