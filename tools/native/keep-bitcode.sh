#!/bin/sh
# Stands in for the kit's clang: keeps the bitcode of the program, which alone is compiled with -fsanitize=address, as kept.bc beside
# itself, and fails, so that the kit stops there and runs nothing. Other calls go to the kit's clang, the link kit-clang beside it.
here=${0%/*}
case " $* " in *" -fsanitize=address "*) ;; *) exec "$(readlink "$here/kit-clang")" "$@" ;; esac
for word in "$@"; do
    case $word in *.bc) cp "$word" "$here/kept.bc" ;; esac
done
exit 1
