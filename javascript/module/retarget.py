#!/usr/bin/env python3
"""retarget.py IN.ll OUT.ll: the module of LLVM that the kit compiles the library for C from, for WebAssembly of 32 bits.

The kit writes the module for x86-64: a place for an address has 8 bytes, and a `usize` 64 bits. Both stay, so that the
structs of pcidr.h are laid out as in C, and no sum of lengths wraps at 2^32. Of an address WebAssembly writes 4 bytes:

- A local place for one keeps its 8 bytes, which the module copies and clears as 8.
- In a constant 4 bytes of zeros stand behind it.
- A byte and an address that are loaded as a pair are loaded one by one, the address from byte 8 on.
- `ptrtoaddr` to 64 bits, which asks for an address of as many, becomes `ptrtoint`, which fills with zeros.

What memory is copied by, and offsets in it, LLVM cuts to 32 bits: each block lies in the memory, and so is below 2^32. A line
of another form than these, one for which a size or an offset could depend on an address, ends the script.
"""
import re
import sys

LAYOUT = "e-m:e-p:32:32-p10:8:8-p20:8:8-i64:64-i128:128-n32:64-S128-ni:1:10:20"
FOR_X86 = re.compile(r' ?"(?:probe-stack|stack-probe-size|target-cpu)"="[^"]*"')
VALUE = r"(?:i\d+|<\d+ x i\d+>)"
VALUES = rf"\{{ {VALUE}(?:, {VALUE})* \}}"
# the forms in which a type has a size, each without an address in a struct, but for one in front of 64 bits
ALLOCATED = re.compile(rf"= alloca (?:{VALUE}|\[\d+ x i8\]), align \d+$")
LOADED = re.compile(rf"= load (?:{VALUE}|{VALUES}|ptr|\{{ ptr, i64 \}}), ptr ")
STORED = re.compile(rf"  store (?:{VALUE}|{VALUES}|ptr|\{{ ptr, i64 \}}) ")
STEPPED = re.compile(r"getelementptr (?:inbounds |nuw )*i8, ")
PAIR = re.compile(r"  (%[\w.]+) = load \{ i8, ptr \}, ptr (%[\w.]+), align 8$")
CONSTANT = re.compile(r"<\{ ptr, (\[\d+ x i8\]) \}> <\{ (ptr getelementptr \(i8, ptr @static\.\d+, i64 \d+\)), ")
PLAIN = re.compile(rf"@[\w.]+ = private (?:unnamed_addr )?constant \[\d+ x i8\] ")


def retargeted(line):
    """One line of the module, or None where its form is not known."""
    if line.startswith("target datalayout"):
        return f'target datalayout = "{LAYOUT}"'
    if line.startswith("target triple"):
        return 'target triple = "wasm32-unknown-unknown"'
    if line.startswith("attributes "):
        return FOR_X86.sub("", line)
    if line.startswith("@"):
        if PLAIN.match(line):
            return line
        line, count = CONSTANT.subn(r"<{ ptr, [4 x i8], \1 }> <{ \2, [4 x i8] zeroinitializer, ", line)
        return line if count == 1 else None
    if pair := PAIR.match(line):
        name, place = pair.groups()
        return (f"  {name}.byte = load i8, ptr {place}, align 8\n"
                f"  {name}.place = getelementptr i8, ptr {place}, i64 8\n"
                f"  {name}.address = load ptr, ptr {name}.place, align 8\n"
                f"  {name}.half = insertvalue {{ i8, ptr }} poison, i8 {name}.byte, 0\n"
                f"  {name} = insertvalue {{ i8, ptr }} {name}.half, ptr {name}.address, 1")
    line = line.replace("= alloca ptr, align 8", "= alloca [8 x i8], align 8").replace("ptrtoaddr ptr", "ptrtoint ptr")
    for word, form in ((" alloca ", ALLOCATED), (" load ", LOADED), (" store ", STORED), ("getelementptr ", STEPPED)):
        if word in line and not form.search(line):
            return None
    return None if " asm " in line or "inttoptr" in line or "va_arg" in line else line


def main():
    source, target = sys.argv[1:]
    with open(source, encoding="utf-8") as lines, open(target, "w", encoding="utf-8") as out:
        for number, line in enumerate(lines, 1):
            made = retargeted(line.rstrip("\n"))
            if made is None:
                sys.exit(f"{source}:{number}: a form that is not known: {line.rstrip()[:200]}")
            out.write(made + "\n")


if __name__ == "__main__":
    main()
