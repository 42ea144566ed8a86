"""The 64 bytes of a closure's slot in Unicorn, a model of each processor that this project did not write.

The bytes are those that docs/FORMATS.md, section 7, prints. What must come of them is docs/RULES.md, section 13: three
instructions from the slot reach ENTRY, the closure register has the slot's address, one more register may change, and
no memory does. The first instruction of a free slot's filling traps.
"""

import pathlib
import random
import re

FORMATS = pathlib.Path(__file__).resolve().parent.parent.parent / "docs" / "FORMATS.md"
CODE, CODE_SIZE, SLOT, SLOTS = 0x10000, 0x4000, 64, 256
ENTRY, PAGE = 0x1000, 0x1000
STEPS = 3
TRIED = [0, 1, 2, 127, 254, 255]

# The closure register, and the register that a trampoline may use.
CLOSURE = {"amd64": "r10", "aapcs64": "x17", "riscv": "x6", "win64": "r10", "apple": "x17"}
USED = {"amd64": None, "aapcs64": "x16", "riscv": "x7", "win64": None, "apple": "x16"}
# A target whose slots are those of another, with whose word they are printed.
SLOTS_OF = {"win64": "amd64", "apple": "aapcs64"}


def slot_bytes():
    """The bytes of the closure that FORMATS.md prints, for each target."""
    text = FORMATS.read_text()
    found = {}
    for target in CLOSURE:
        match = re.search(rf"^{SLOTS_OF.get(target, target)} +((?:[0-9a-f]{{16}}\s+){{8}})", text, re.MULTILINE)
        found[target] = bytes.fromhex("".join(match[1].split()))
    return found


def free_slot_bytes():
    """A free slot's bytes, for each target."""
    line = re.search(r"^A free slot is filled with (.*?)\n\n", FORMATS.read_text(), re.MULTILINE | re.DOTALL)[1]
    fillings = re.findall(r"`([0-9a-f]+)` \([^)]*\)(?: on|,)\s+(?:on\s+)?(\w+)", line)
    found = {target: bytes.fromhex(filling) * (SLOT // (len(filling) // 2)) for filling, target in fillings}
    return found | {target: found[other] for target, other in SLOTS_OF.items()}


def machine(target):
    """A machine of Unicorn, the numbers of its registers by name, and the number of its pc."""
    import unicorn
    from unicorn import arm64_const, riscv_const, x86_const
    if SLOTS_OF.get(target, target) == "amd64":
        names = "rax rbx rcx rdx rsi rdi rbp rsp r8 r9 r10 r11 r12 r13 r14 r15".split()
        return (unicorn.Uc(unicorn.UC_ARCH_X86, unicorn.UC_MODE_64),
                {name: getattr(x86_const, f"UC_X86_REG_{name.upper()}") for name in names}, x86_const.UC_X86_REG_RIP)
    if SLOTS_OF.get(target, target) == "aapcs64":
        names = [f"x{number}" for number in range(31)] + ["sp"]
        return (unicorn.Uc(unicorn.UC_ARCH_ARM64, unicorn.UC_MODE_ARM),
                {name: getattr(arm64_const, f"UC_ARM64_REG_{name.upper()}") for name in names},
                arm64_const.UC_ARM64_REG_PC)
    names = [f"x{number}" for number in range(1, 32)]
    return (unicorn.Uc(unicorn.UC_ARCH_RISCV, unicorn.UC_MODE_RISCV64),
            {name: getattr(riscv_const, f"UC_RISCV_REG_{name.upper()}") for name in names}, riscv_const.UC_RISCV_REG_PC)


def is_trap(target, bytes_of_slot):
    """Whether the first instruction at a slot raises an exception. Unicorn 2.0.1 tells RISC-V's ebreak as invalid."""
    import unicorn
    processor, _, _ = machine(target)
    processor.mem_map(CODE, CODE_SIZE)
    processor.mem_write(CODE, bytes_of_slot)
    try:
        processor.emu_start(CODE, 0, count=1)
    except unicorn.UcError as fault:
        return fault.errno in (unicorn.UC_ERR_EXCEPTION, unicorn.UC_ERR_INSN_INVALID)
    return False


def wrong_in(target, bytes_of_slot, number, source):
    """What a slot's three steps do that the rules do not say, as texts."""
    processor, registers, pc = machine(target)
    processor.mem_map(CODE, CODE_SIZE)
    processor.mem_map(ENTRY, PAGE)
    code = bytearray(source.randbytes(CODE_SIZE))
    address = CODE + SLOT * number
    code[SLOT * number:SLOT * (number + 1)] = bytes_of_slot
    processor.mem_write(CODE, bytes(code))
    before = {name: source.getrandbits(63) & ~0xF for name in registers}
    for name, value in before.items():
        processor.reg_write(registers[name], value)
    processor.emu_start(address, 0, count=STEPS)
    after = {name: processor.reg_read(each) for name, each in registers.items()}
    wrong = [f"{name} changes" for name in registers
             if name not in (CLOSURE[target], USED[target]) and before[name] != after[name]]
    if processor.reg_read(pc) != ENTRY:
        wrong.append(f"pc is {processor.reg_read(pc):#x}, not ENTRY")
    if after[CLOSURE[target]] != address:
        wrong.append(f"{CLOSURE[target]} is {after[CLOSURE[target]]:#x}, not the slot's address {address:#x}")
    if processor.mem_read(CODE, CODE_SIZE) != code:
        wrong.append("memory changes")
    return wrong


def compare(target, seed):
    """How many slots, a free one among them, behave as the rules say, and what the others do."""
    import unicorn
    bytes_of_slot = slot_bytes()[target]
    passed, failed = 0, []
    for number in TRIED:
        try:
            wrong = wrong_in(target, bytes_of_slot, number, random.Random(f"{seed} {target} {number}"))
        except unicorn.UcError as fault:
            wrong = [f"not run: {fault}"]
        if wrong:
            failed.append(f"slot {number}: {'; '.join(wrong)}")
        else:
            passed += 1
    if is_trap(target, free_slot_bytes()[target]):
        passed += 1
    else:
        failed.append("a free slot: its first instruction does not trap")
    return passed, failed


def planted(target, seed):
    """Of the code's instructions, each changed by one bit in turn: how many changes are seen, of how many."""
    import unicorn
    good = slot_bytes()[target]
    seen = 0
    changes = {"amd64": [4, 7, 13], "aapcs64": [0, 4, 9], "riscv": [1, 6, 10]}[SLOTS_OF.get(target, target)]
    for at in changes:
        spoilt = bytearray(good)
        spoilt[at] ^= 0x20
        try:
            seen += bool(wrong_in(target, bytes(spoilt), 3, random.Random(seed)))
        except unicorn.UcError:
            seen += 1
    return seen, len(changes)
