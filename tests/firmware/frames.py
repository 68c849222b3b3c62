#!/usr/bin/env python3
"""How much stack each exported function of an archive can take, read off its machine code.

    frames.py ARCHIVE

Follows every path through every function, keeping count of what is pushed, and adds what the functions called take. The
archive must have no recursion and no call through a pointer. Objects may have functions of the same name that are their
own: a call goes to the object's own function, else to an exported one. Functions outside the archive are named and counted with
their return address alone. Prints a line for each exported function: its name, the bytes, what it calls outside.
"""
import re
import subprocess
import sys

LINE = re.compile(r"^\s*([0-9a-f]+):\s+(?:(?:notrack|rep|repz|repnz|lock|data16|cs|bnd)\s+)*(\S+)\s*(.*?)\s*$")


def functions_of(archive):
    """(object, name) -> list of (address, mnemonic, operands, symbol of a relocation or None)."""
    text = subprocess.run(
        ["objdump", "-dr", "--no-show-raw-insn", archive], check=True, capture_output=True, text=True
    ).stdout
    found, code, member = {}, None, None
    for line in text.splitlines():
        header = re.match(r"^[0-9a-f]+ <(.+)>:$", line)
        if re.match(r"^\S+:\s+file format ", line):
            member = line.split(":")[0]
        elif header:
            code = found[member, header.group(1)] = []
        elif re.match(r"^\s+[0-9a-f]+: R_X86_64_", line):
            symbol = re.sub(r"[-+]0x[0-9a-f]+$", "", line.split()[-1])
            address, mnemonic, operands, _ = code[-1]
            code[-1] = (address, mnemonic, operands, symbol.removeprefix(".text."))
        elif LINE.match(line):
            address, mnemonic, operands = LINE.match(line).groups()
            code.append((int(address, 16), mnemonic, operands, None))
    return found


def exports_of(archive):
    """Name -> object of each exported function."""
    text = subprocess.run(["nm", "--defined-only", archive], check=True, capture_output=True, text=True).stdout
    found, member = {}, None
    for line in text.splitlines():
        words = line.split()
        if len(words) == 1 and line.endswith(":"):
            member = line[:-1]
        elif len(words) == 3 and words[1] == "T":
            found[words[2]] = member
    return found


def number(digits):
    return int(digits, 16)


def moved(mnemonic, operands):
    """By how much an instruction lowers the stack's pointer."""
    if mnemonic in ("push", "pushq"):
        return 8
    if mnemonic in ("pop", "popq"):
        return -8
    for form, sign in ((r"sub", 1), (r"add", -1)):
        match = re.match(r"\$(-?)0x([0-9a-f]+),%rsp$", operands)
        if mnemonic in (form, form + "q") and match:
            return sign * (-1 if match.group(1) else 1) * number(match.group(2))
    match = re.match(r"(-?)0x([0-9a-f]+)\(%rsp\),%rsp$", operands)
    if mnemonic == "lea" and match:
        return number(match.group(2)) * (1 if match.group(1) else -1)
    if operands.endswith(",%rsp") and mnemonic not in ("cmp", "test", "cmpq", "testq"):
        sys.exit(f"frames: {mnemonic} {operands} is not understood")
    return 0


def frame_of(name, code):
    """The deepest point of a function, and (function called, depth) pairs."""
    index = {instruction[0]: at for at, instruction in enumerate(code)}
    deepest, calls, seen, pointed = 8, [], set(), {}
    todo, tables = [(0, 8)], []
    while todo or tables:
        if not todo:
            # a jump through a table goes to some place in the function that nothing else leads to
            depth = tables.pop()
            todo = [(at, depth) for at in range(len(code)) if at not in seen][:1]
            if todo:
                tables.append(depth)
            continue
        at, depth = todo.pop()
        if at >= len(code) or at in seen:
            continue
        seen.add(at)
        address, mnemonic, operands, symbol = code[at]
        # a large frame is taken page by page, in a loop down to where a register points
        first, _, second = operands.rpartition(",")
        lower = re.match(r"(?:-0x([0-9a-f]+)\(%rsp\)|%rsp)$", first)
        if mnemonic in ("lea", "mov") and lower and second.startswith("%r") and second != "%rsp":
            pointed[second] = depth + number(lower.group(1) or "0")
        elif mnemonic == "sub" and first.startswith("$0x") and second in pointed:
            pointed[second] += number(first[3:])
        elif mnemonic == "cmp" and second == "%rsp" and first in pointed:
            depth = pointed[first]
        depth += moved(mnemonic, operands)
        # a function that calls none may use the places below the pointer
        below = re.search(r"-0x([0-9a-f]+)\(%rsp", operands) if mnemonic != "lea" else None
        deepest = max(deepest, depth + number(below.group(1) if below else "0"))
        target = re.match(r"([0-9a-f]+) <([^+>]+)>?", operands)
        inside = symbol is None and target and number(target.group(1)) in index
        called = symbol or (target.group(2) if target else None)
        if mnemonic.startswith("call"):
            if called is None:
                sys.exit(f"frames: {name} calls {operands}, which is not understood")
            calls.append((called, depth))
        elif mnemonic.startswith("j") and operands.startswith("*"):
            tables.append(depth)
        elif mnemonic.startswith("j") and inside:
            todo.append((index[number(target.group(1))], depth))
        elif mnemonic.startswith("j"):
            # the other function answers in the place of this one
            calls.append((called, depth - 8))
        if mnemonic not in ("ret", "retq", "jmp", "jmpq", "ud2", "int3", "hlt"):
            todo.append((at + 1, depth))
    return deepest, calls


def main():
    if len(sys.argv) != 2:
        sys.exit(__doc__)
    archive = sys.argv[1]
    frames = {key: frame_of(key[1], code) for key, code in functions_of(archive).items()}
    exported = exports_of(archive)
    outside = set()

    def taken(member, name, under=()):
        key = (member, name) if (member, name) in frames else (exported.get(name), name)
        if key in under:
            sys.exit(f"frames: {name} calls itself")
        if key not in frames:
            outside.add(name)
            return 8
        deepest, calls = frames[key]
        return max([deepest] + [depth + taken(key[0], called, under + (key,)) for called, depth in calls])

    for name, member in sorted(exported.items()):
        outside.clear()
        print(name, taken(member, name), " ".join(sorted(outside)))


if __name__ == "__main__":
    main()
