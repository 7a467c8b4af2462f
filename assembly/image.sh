#!/bin/sh
# Writes the image of an assembly source to standard output: its code in one page at 0x10000000, and one page of data after it.
# It does not link: a source with undefined symbols, with other sections than .text, or with an address for a linker to fill in is
# refused with status 1. tools/image links such sources. It wants the assembler, objcopy and objdump of GNU binutils.
set -e
object=$(mktemp)
code=$(mktemp)
trap 'rm -f "$object" "$code"' EXIT
as -o "$object" "$1"

# Ends with status 1 where there are any lines, and tells each: the text, with the line for its `&`.
refuse() {
    if [ -n "$2" ]; then
        printf '%s\n' "$2" | sed "s|.*|image.sh: $1|" >&2
        exit 1
    fi
}

symbols=$(objdump -t "$object")
sections=$(objdump -h -w "$object")
relocations=$(objdump -r -j .text "$object")
undefined=$(printf '%s\n' "$symbols" | sed -n 's/.*\*UND\*[[:space:]]*[0-9a-f]* //p')
others=$(printf '%s\n' "$sections" | awk '/ALLOC/ && $2 != ".text" && $2 !~ /^\.note/ && $3 !~ /^0*$/ { print $2 }')
unfilled=$(printf '%s\n' "$relocations" | sed -n 's/^0*\([0-9a-f][0-9a-f]*\) *R_[^ ]* *\(.*\)/at 0x\1 of .text a linker has to fill in `\2`/p')
refuse 'the symbol `&` is undefined' "$undefined"
refuse 'the section `&` has bytes, and only those of .text come into the image: use tools/image' "$others"
refuse '&: use tools/image' "$unfilled"

objcopy -O binary -j .text "$object" "$code"
cat <<END
version = 1
base = 268435456
entry = 0
budget = 2
signer = "lab"

[[page]]
perms = "rx"
cluster = "code"
bytes = "$(od -An -v -tx1 "$code" | tr -d ' \n')"

[[page]]
perms = "rw"
cluster = "data"
bytes = ""
END
