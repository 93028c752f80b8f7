"""From the LLVM bitcode of the program to a WebAssembly module.

  1. the kit's clang writes the bitcode as text, and `for_wasm` makes a text for wasm64 of it: pointers stay 64 bits wide, as they are in what was proved
  2. the kit's clang compiles that text and shim.c, and the kit's lld links them
  3. the table of functions goes: the program calls nothing through it, and binaryen of Debian 12 reads none of 64 bits
  4. binaryen's wasm-opt lowers the memory to 32 bits, which every browser has

All commands run in one folder, on names without a path: so no name of a folder is in the module.
"""
import os
import re
import shutil
import subprocess

SHIM = os.path.join(os.path.dirname(os.path.realpath(__file__)), "shim.c")
CLANG = ["--no-default-config", "-fintegrated-cc1"]
WASM = ["--target=wasm64-unknown-unknown", "-mcpu=lime1", "-O2", "-ffunction-sections"]
LINK = ["-mwasm64", "--no-entry", "--gc-sections", "--strip-all", "-z", "stack-size=8388608", "--stack-first"]
FEATURES = [f"--enable-{it}" for it in ("memory64", "bulk-memory", "sign-ext", "nontrapping-float-to-int", "mutable-globals")]
LAYOUT = "e-m:e-p:64:64-p10:8:8-p20:8:8-i64:64-i128:128-n32:64-S128-ni:1:10:20"
OF_X86 = r'"(frame-pointer|stack-probe-size|target-cpu|target-features|tune-cpu|probe-stack)"="[^"]*" ?|sanitize_address '
CHECKS = '"rattle-llvm-checks::'


def for_wasm(lines, is_try):
    """The lines of the program's text, for wasm64. Of a program that was not proved, its checks are left out."""
    is_check = False
    for line in lines:
        if is_check:
            is_check = not line.startswith("}")
        elif line.startswith("target datalayout"):
            yield f'target datalayout = "{LAYOUT}"\n'
        elif line.startswith("target triple"):
            yield 'target triple = "wasm64-unknown-unknown"\n'
        elif line.startswith("attributes"):
            yield re.sub(OF_X86, "", line).replace("{ }", '{ "rattle" }')
        elif line.startswith("define"):
            is_check = CHECKS in line
            if not is_check:
                yield line.replace("@main(", "@ets_main(")
        elif is_try and (f"call void @{CHECKS}" in line or "call void @llvm.trap()" in line or "call void @llvm.memset" in line and ", i8 -86, " in line):
            pass
        elif "@syscall(" in line:
            # Here a function with any number of arguments is called in another way than one with five.
            yield line.replace("(i64, ptr, i64, i64, ptr, ...)", "(i64, ptr, i64, i64, ptr)").replace(", ...)", ")")
        else:
            # A barrier for the compiler, written as an empty instruction.
            yield re.sub(r'call void asm sideeffect "", "~\{memory\}[^"]*"\(\)[^\n]*', 'fence syncscope("singlethread") seq_cst', line)


def number(code, at):
    """A number of a module, and the place after it."""
    it = shift = 0
    while True:
        it |= (code[at] & 127) << shift
        shift, at = shift + 7, at + 1
        if code[at - 1] < 128:
            return it, at


def without_table(code):
    """The module without its table (section 4) and what is in that (section 9)."""
    at, kept = 8, code[:8]
    while at < len(code):
        length, body = number(code, at + 1)
        if code[at] not in (4, 9):
            kept += code[at : body + length]
        at = body + length
    return kept


def contents(path):
    with open(path, "rb") as it:
        return it.read()


def write(path, it):
    with open(path, "wb") as file:
        file.write(it)


def make(room, kit, is_try):
    """Makes room/ets.wasm of room/whole.bc. Returns what went wrong, if anything did."""
    clang = f"{kit}/toolchain/bin/clang"
    how = {"encoding": "utf-8", "errors": "surrogateescape"}
    said = ""

    def call(*words):
        nonlocal said
        ran = subprocess.run(words, cwd=room, stdout=subprocess.PIPE, stderr=subprocess.STDOUT, text=True, errors="replace")
        if ran.returncode:
            said = f"{os.path.basename(words[0])} ended with status {ran.returncode}:\n{ran.stdout[-3000:]}"
        return not ran.returncode

    if not call(clang, *CLANG, "--target=x86_64-unknown-linux-gnu", "-x", "ir", "whole.bc", "-S", "-emit-llvm", "-O0", "-Xclang", "-disable-llvm-passes", "-o", "whole.ll"):
        return said
    with open(f"{room}/whole.ll", **how) as whole, open(f"{room}/wasm.ll", "w", **how) as wasm:
        wasm.writelines(for_wasm(whole, is_try))
    shutil.copy(SHIM, f"{room}/shim.c")
    if not os.path.lexists(f"{room}/wasm-ld"):
        os.symlink(clang, f"{room}/wasm-ld")  # the kit's clang is its linker, too, under that name
    is_made = call(clang, *CLANG, *WASM, "-c", "-x", "ir", "wasm.ll", "-o", "whole.o")
    is_made = is_made and call(clang, *CLANG, *WASM, "-ffreestanding", "-c", "shim.c", "-o", "shim.o")
    is_made = is_made and call("./wasm-ld", *LINK, "whole.o", "shim.o", "-o", "64.wasm")
    if is_made:
        write(f"{room}/bare.wasm", without_table(contents(f"{room}/64.wasm")))
        is_made = call("wasm-opt", *FEATURES, "--memory64-lowering", "-O3", "bare.wasm", "-o", "ets.wasm")
    return None if is_made else said


def tools(kit):
    """The first lines by which the tools name themselves."""
    first = lambda *words: subprocess.run(words, stdout=subprocess.PIPE, text=True).stdout.split("\n")[0]
    return [first(f"{kit}/toolchain/bin/clang", "--version"), first("wasm-opt", "--version")]
