# The library from C: every call and refusal, each allocation failing in turn, readers in threads beside a control, the C++
# handles, the Python module, the example; under sanitizers and valgrind; and that the header declares what is exported.
# The archive isn't instrumented, so the sanitizers see the C code and its calls of malloc and free alone.
. "$(dirname "$0")/../preamble.sh"
needs gcc g++ ar nm rt python3
tests=$top/tests/c
made=$room/library
# The program, the header, the changes and the packages have one version.
program_version=$(sed -n 's/^pub const VERSION: &str = "pipapo \(.*\)\\n";$/\1/p' crates/command_words/src/help.rt)
{
    sed -n 's/^#define PIPAPO_VERSION_[A-Z]* \([0-9]*\)$/\1/p' include/pipapo.h | paste -sd.
    sed -n 's/^## \([0-9.]*\)$/\1/p' CHANGELOG.md | head -n 1
    sed -n '1s/.*(\(.*\)).*/\1/p' packaging/debian/changelog
} | while read -r version; do
    [ "$version" = "$program_version" ] || echo "$version"
done >"$room/versions"
[ ! -s "$room/versions" ] || complain "the program's version is $program_version, and others are $(paste -sd' ' "$room/versions")"

# (the first time it proves the exports, which takes some minutes if the crates below are proved)
c/build "$made" /usr >"$room/log" 2>&1 || {
    complain "the library isn't built"
    tail -20 "$room/log"
    finish
}
strict="-Wall -Wextra -Wpedantic -Werror -I$top/include"
seconds=${PIPAPO_THREAD_SECONDS:-2}

# Builds a test with these words, and runs it with those of $arguments.
runs() { # COMPILER FILE WORD ..
    compiler=$1
    file=$2
    shift 2
    # shellcheck disable=SC2086
    "$compiler" $strict "$@" -pthread -o "$room/test" "$file" "$made/libpipapo.a" && "$room/test" $arguments ||
        complain "$(basename "$file") fails with $compiler $*"
}

arguments=
runs gcc "$tests/calls.c" -std=c11 -O2
runs gcc "$tests/calls.c" -std=c11 -O1 -g -fsanitize=address,undefined
runs gcc "$tests/limits.c" -std=c11 -O2
runs gcc "$tests/failing.c" -std=c11 -O2 -Wl,--wrap=malloc,--wrap=realloc,--wrap=free
runs g++ "$tests/handles.cpp" -std=c++17 -O2
runs g++ "$tests/handles.cpp" -std=c++17 -O1 -g -fsanitize=address,undefined
# the program that the header begins with
{
    printf '#include <stdio.h>\n#include "pipapo.h"\nint main(void) {\n'
    sed -n '/VALUES/q; s/^ \*     //p' include/pipapo.h
    echo 'return error || id != answer.id; }'
} >"$room/example.c"
runs gcc "$room/example.c" -std=c11 -O1 -fsanitize=address,undefined
if has clang; then
    runs clang "$tests/calls.c" -std=c11 -O2
    runs clang++ "$tests/handles.cpp" -std=c++17 -O2
else
    skip_part "clang isn't installed"
fi
runs gcc "$tests/guarded.c" -std=c11 -O2 -DPIPAPO_CHECKED
runs gcc "$tests/calls.c" -std=c11 -O2 -DPIPAPO_CHECKED
arguments=$seconds
runs gcc "$tests/threads.c" -std=c11 -O2
# ThreadSanitizer sees what the library calls of C, and not the atomics by which the library orders these calls. So it reports
# a block that one thread reads and another frees later. It leaves out the calls of the shared library.
echo called_from_lib:libpipapo.so >"$room/left_out"
gcc $strict -std=c11 -O1 -g -fsanitize=thread -pthread -o "$room/test" "$tests/threads.c" "$made/libpipapo.so" -Wl,-rpath,"$made" &&
    TSAN_OPTIONS=suppressions=$room/left_out "$room/test" "$seconds" || complain "ThreadSanitizer finds errors"
runs gcc "$tests/threads.c" -std=c11 -O1 -g -fsanitize=address,undefined
if has valgrind; then
    gcc $strict -std=c11 -O1 -g -o "$room/test" "$tests/calls.c" "$made/libpipapo.a" &&
        valgrind -q --leak-check=full --error-exitcode=9 "$room/test" || complain "valgrind finds errors"
else
    skip_part "valgrind isn't installed"
fi

# The proved code takes memory and moves bytes, and calls nothing else of C. So none of its calls waits or aborts.
others=$(nm -u crates/pipapo_c/out/libpipapo_c.a | awk '$1 == "U" { print $2 }' |
    grep -vxE 'mem(cpy|move|set)|rattle_(alloc|dealloc|realloc)')
[ -z "$others" ] || complain "the archive calls $others"

# Only the calls of the header are exported.
others=$(nm -D --defined-only "$made/libpipapo.so.0" | awk '$2 != "A" && $3 !~ /^pipapo_/ { print $3 }')
[ -z "$others" ] || complain "the shared library exports $others"

# The example as C11 and as C++17, on a capture of which three of six packets have a key. The rules let all three through.
g++ $strict -x c++ -std=c++17 -c -include pipapo.hpp -o "$room/classify.o" examples/c/classify.c || complain "the example isn't C++17"
if has clang; then
    clang $strict -std=c11 -c -o "$room/classify.o" examples/c/classify.c &&
        clang++ $strict -x c++ -std=c++17 -c -include pipapo.hpp -o "$room/classify.o" examples/c/classify.c ||
        complain "clang refuses the example"
fi
gcc $strict -std=c11 -O2 -pthread -o "$room/classify" examples/c/classify.c "$made/libpipapo.a" &&
    "$room/classify" examples/c/allow.nft examples/capture/six.pcap 100 >"$room/counts" || complain "the example fails"
awk '$1 == "thread" && $3 > 0 && $3 == $5 { ++threads } END { exit threads != 4 }' "$room/counts" ||
    complain "the example writes $(cat "$room/counts")"
printf 'add set\n' >"$room/bad.nft"
if "$room/classify" "$room/bad.nft" examples/capture/six.pcap 2>"$room/refused"; then
    complain "the example takes a text that isn't a script"
fi
[ "$(cat "$room/refused")" = "$room/bad.nft:1:8: another word or mark is wanted here" ] ||
    complain "the example says $(cat "$room/refused")"

python3 "$tests/layout.py" "$top" >"$room/layout.c" && gcc $strict -std=c11 -c -o "$room/layout.o" "$room/layout.c" ||
    complain "the header doesn't declare what is exported"
[ -x "$program" ] || skip_part "random calls aren't compared with the program, which isn't built"
PIPAPO_PROGRAM=$program PIPAPO_LIBRARY=$made/libpipapo.so.0 PYTHONPATH=$top/python \
    python3 "$top/tests/python/test_pipapo.py" || complain "the Python module fails"
finish
