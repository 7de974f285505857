# The Debian packages: dpkg-buildpackage makes them, lintian finds no error and no warning, and a C program builds against what is
# in them and runs. They have the program's version.
. "$(dirname "$0")/../preamble.sh"
needs dpkg-buildpackage dpkg-deb dh lintian pkg-config cc ar rt
needs_program
if ! make -s -C c >"$room/log" 2>&1 || ! packaging/build "$room/packages" >>"$room/log" 2>&1; then
    complain "no packages are made"
    tail -20 "$room/log"
    finish
fi
version=$("$program" --version | cut -d ' ' -f 2)
for package in pipapo libpipapo0 libpipapo-dev; do
    dpkg-deb -x "$room/packages/${package}_${version}_amd64.deb" "$room/root" || complain "there is no package $package $version"
done
lib=$room/root/usr/lib/x86_64-linux-gnu
# shellcheck disable=SC2046
cc -std=c11 -O2 -pthread -o "$room/classify" examples/c/classify.c $(PKG_CONFIG_SYSROOT_DIR=$room/root \
    PKG_CONFIG_LIBDIR=$lib/pkgconfig pkg-config --cflags --libs pipapo) &&
    LD_LIBRARY_PATH=$lib "$room/classify" examples/c/allow.nft examples/capture/six.pcap 10 >"$room/counts" ||
    complain "no program builds and runs with the packages"
PIPAPO_LIBRARY=$lib/libpipapo.so.0 PYTHONPATH=$top/python python3 -c 'import pipapo; print("pipapo", *pipapo.version())' >"$room/told" || complain "Python doesn't find the library"
[ "$(tr ' ' . <"$room/told")" = "pipapo.$version" ] || complain "the library's version is $(cat "$room/told")"
(cd examples/allow && "$room/root/usr/bin/pipapo" run allow.nft packets.keys) >"$room/written" || complain "the packed program fails"
cmp -s examples/allow/transcript "$room/written" || complain "the packed program writes something else"
finish
