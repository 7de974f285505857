# `make install` into an empty folder: the installed program runs by itself, with its manual page and completions beside it; a C
# program builds against the installed library; and `make uninstall` leaves no file but one that was there before.
. "$(dirname "$0")/../preamble.sh"
needs make install cc ar
needs_program
place=$room/stage/opt/pipapo
installed() {
    (cd "$room/stage" && find . ! -type d | LC_ALL=C sort)
}
if ! make -s install DESTDIR="$room/stage" PREFIX=/opt/pipapo >"$room/told" 2>&1; then
    complain "make install fails"
    cat "$room/told"
    finish
fi
installed >"$room/found"
cat >"$room/wanted" <<END
./opt/pipapo/bin/pipapo
./opt/pipapo/include/pipapo.h
./opt/pipapo/include/pipapo.hpp
./opt/pipapo/include/pipapo_guard.h
./opt/pipapo/lib/libpipapo.a
./opt/pipapo/lib/libpipapo.so
./opt/pipapo/lib/libpipapo.so.0
./opt/pipapo/lib/pkgconfig/pipapo.pc
./opt/pipapo/lib/python3/dist-packages/pipapo.py
./opt/pipapo/share/bash-completion/completions/pipapo
./opt/pipapo/share/fish/vendor_completions.d/pipapo.fish
./opt/pipapo/share/man/man1/pipapo.1
./opt/pipapo/share/zsh/site-functions/_pipapo
END
cmp -s "$room/wanted" "$room/found" || complain "other files are installed: $(tr '\n' ' ' <"$room/found")"
(cd examples/allow && "$place/bin/pipapo" run allow.nft packets.keys) >"$room/written" || complain "the installed program fails"
cmp -s examples/allow/transcript "$room/written" || complain "the installed program writes something else"
cmp -s docs/pipapo.1 "$place/share/man/man1/pipapo.1" || complain "another manual page is installed"
if has pkg-config; then
    # shellcheck disable=SC2046
    cc -std=c11 -O2 -pthread -o "$room/classify" examples/c/classify.c $(PKG_CONFIG_SYSROOT_DIR=$room/stage \
        PKG_CONFIG_LIBDIR=$place/lib/pkgconfig pkg-config --cflags --libs pipapo) &&
        LD_LIBRARY_PATH=$place/lib "$room/classify" examples/c/allow.nft examples/capture/six.pcap 10 >"$room/counts" ||
        complain "no program builds and runs with the installed library"
else
    skip_part "a program with the installed library, since pkg-config isn't installed"
fi
if has bash; then
    bash -c '. "$1" && complete -p pipapo' bash "$place/share/bash-completion/completions/pipapo" >"$room/told" 2>&1 || complain "the installed completion isn't read by bash"
else
    skip_part "the installed completion, since bash isn't installed"
fi
echo kept >"$place/bin/another"
make -s uninstall DESTDIR="$room/stage" PREFIX=/opt/pipapo >"$room/told" 2>&1 || complain "make uninstall fails"
[ "$(installed)" = ./opt/pipapo/bin/another ] || complain "make uninstall leaves $(installed | tr '\n' ' ')"
finish
