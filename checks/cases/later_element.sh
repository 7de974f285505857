# Elements that enclose earlier ones, in the running kernel and here: which of both answers a key that they share. The case
# fails if the program doesn't answer the earlier one. It prints what the kernel answers.
. "$(dirname "$0")/../preamble.sh"
needs python3
needs_kernel_sets
needs_program
grep -q avx2 /proc/cpuinfo || echo "$case: without AVX2 the kernel's other code answers"
unshare -rn python3 checks/scripts/later_element.py "$program" || bad=1
finish
