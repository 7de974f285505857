#!/bin/sh -e
# Builds the peers of bench/peers into the folder named: kernel_bench from the kernel's own files, as Debian's package
# linux-source-6.1 has them, acl_bench where DPDK's is installed, and library_bench over libpipapo. What is missing is named.
# Nothing of the kernel's is kept in the repository.
here=$(cd "$(dirname "$0")" && pwd)
top=$(cd "$here/../.." && pwd)
to=$1
cc=${CC:-cc}
mkdir -p "$to/library"
"$top/c/build" "$to/library" >&2
$cc -std=gnu11 -O2 -I"$top/include" -I"$here" "$here/library_bench.c" "$to/library/libpipapo.a" -o "$to/library_bench"
mkdir -p "$to/kernel" "$to/headers"
package=$(ls /usr/src/linux-source-6.1.tar.xz 2>/dev/null) || {
    echo "bench/peers: the kernel is skipped, since the package linux-source-6.1 isn't installed" >&2
    package=
}
if [ -n "$package" ] && [ ! -x "$to/kernel_bench" ]; then
    net=linux-source-6.1/net/netfilter
    tar -C "$to/kernel" -xJf "$package" --strip-components=1 linux-source-6.1/lib/bitmap.c \
        $net/nft_set_pipapo.c $net/nft_set_pipapo.h $net/nft_set_pipapo_avx2.c $net/nft_set_pipapo_avx2.h
    # each header that these files ask for is the one file of stand-ins
    for header in linux/kernel.h linux/init.h linux/module.h linux/netlink.h linux/netfilter.h \
        linux/netfilter/nf_tables.h linux/bitmap.h linux/bitops.h linux/compiler.h linux/log2.h \
        net/netfilter/nf_tables_core.h net/ipv6.h uapi/linux/netfilter/nf_tables.h asm/fpu/api.h asm/fpu/xstate.h; do
        mkdir -p "$to/headers/$(dirname $header)"
        echo '#include "kernel_shim.h"' >"$to/headers/$header"
    done
    # the four functions on bitmaps that they call
    {
        echo '#include "kernel_shim.h"'
        awk '/^(bool|int|void) (__bitmap_and|__bitmap_set|__bitmap_clear|bitmap_cut)\(/ { p = 1 } p; /^}/ { p = 0 }' \
            "$to/kernel/lib/bitmap.c"
    } >"$to/kernel/bitmap_part.c"
    files=$to/kernel/net/netfilter
    python3 "$here/room_to_grow.py" "$files/nft_set_pipapo.c" "$files/roomy_pipapo.c"
    flags="-std=gnu11 -O2 -fno-strict-aliasing -fno-strict-overflow -I$to/headers -I$here -I$files"
    # no vector registers for the compiler, as in a kernel: the AVX2 file's assembly counts on keeping them
    kernel="-mgeneral-regs-only -mno-red-zone -w"
    for file in "$files/roomy_pipapo.c" "$files/nft_set_pipapo_avx2.c"; do
        $cc $flags $kernel -DSHIM_PLAIN_MEMSET -c "$file" -o "$to/$(basename "$file" .c).o"
    done
    $cc $flags $kernel -c "$to/kernel/bitmap_part.c" -o "$to/bitmap_part.o"
    $cc $flags -c "$here/kernel_shim.c" -o "$to/kernel_shim.o"
    $cc $flags -Wno-pointer-sign -c "$here/kernel_bench.c" -o "$to/kernel_bench.o"
    $cc "$to"/*.o -o "$to/kernel_bench"
fi
if ! pkg-config --exists libdpdk 2>/dev/null; then
    echo "bench/peers: DPDK ACL is skipped, since the package libdpdk-dev isn't installed" >&2
elif [ ! -x "$to/acl_bench" ]; then
    $cc -std=gnu11 -O2 $(pkg-config --cflags libdpdk) -I"$here" "$here/acl_bench.c" -o "$to/acl_bench" \
        $(pkg-config --libs libdpdk | tr ' ' '\n' | grep -v '^-lrte') -lrte_acl -lrte_eal
fi
