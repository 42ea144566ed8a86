#!/usr/bin/python3
"""The stubs of each instruction set in Unicorn, a model of each processor that this project did not write.

The bytes are those that a test, crates/ffi3_call_tests/src/stub_bytes.rt, finds in a machine that has begun. What must
come of them is docs/RULES.md, section 12: `ROWS` is its table, `STEPS` has its counts, and the functions before them
say what a row does to registers and memory. Nothing here looks into the bytes.

Alone it does for all targets what `run` does of stubs: conformance/places/stubs.py [SEED]
"""

import random
import re
import sys
from pathlib import Path

sys.dont_write_bytecode = True
import trampolines  # noqa: E402

TEST = Path(__file__).resolve().parent.parent.parent / "crates" / "ffi3_call_tests" / "src" / "stub_bytes.rt"
ISA = {"amd64": "amd64", "aapcs64": "aarch64", "riscv": "riscv", "win64": "amd64", "apple": "aarch64"}
NAMES = ["entry", "exit", "call", "return"]
WHOLE = "a whole call"
FIELDS = {"entry": "entry", "exit": "exit", "call": "call", "back": "return"}  # of the test

# Fixed addresses, and the places of the exchange region that have no register.
STUBS, STUBS_SIZE = 0x1000, 0x2000
ENTRY, RETURN = 0x1000, 0x2000
CODE, CODE_SIZE = 0x10000, 0x4000
EXCHANGE, EXCHANGE_SIZE, PAGES = 0x20000, 552, 0x2000
STACK, STACK_SIZE = 0x7FEF0000, 0x100000
CALLED, SP_OF_CALL, SP_OF_BLOCK, SAVE_AREA, SP_BEFORE = 512, 520, 528, 536, 544

STATES = 100  # for each stub, and for a whole call
MOST_TOLD = 8  # differences of one state
WORD = (1 << 64) - 1


# ---- registers: ("g", number) and ("f", number), by the names of docs/FORMATS.md, section 5; sp is apart

AMD64_NAMES = "rax rcx rdx rbx rsp rbp rsi rdi".split() + [f"r{number}" for number in range(8, 16)]
RISCV_FIRST = {"t": 5, "s": 8, "a": 10, "fs": 8, "fa": 10}


def register(isa, name):
    """A register by its name."""
    letters, digits = re.fullmatch(r"(.*?[a-z])(\d*)", name).groups()
    if isa == "amd64":
        return ("f", int(digits)) if letters == "xmm" else ("g", AMD64_NAMES.index(name))
    if isa == "aarch64":
        return {"x": "g", "v": "f"}[letters], int(digits)
    if name == "ra":
        return "g", 1
    number = int(digits)
    first = RISCV_FIRST[letters] if letters not in ("s", "fs") or number < 2 else 16  # s2 is 18
    return ("f" if letters[0] == "f" else "g"), first + number


def listed(isa, text):
    """Registers by their names, from one to another where two dots are between."""
    found = []
    for part in text.split():
        first, _, last = part.partition("..")
        if last:
            letters = first.rstrip("0123456789")
            numbers = range(int(first[len(letters):]), int(last[len(letters):]) + 1)
            found += [register(isa, f"{letters}{number}") for number in numbers]
        else:
            found.append(register(isa, first))
    return found


def place(of):
    """Where a register stands in the exchange region."""
    file, number = of
    return 8 * number + (256 if file == "f" else 0)


# ---- a state, and what rows do to it

class State:
    """Registers, `sp`, `pc`, the bytes of the stack, and those of the pages that the exchange region begins."""

    def __init__(self, isa, registers, sp, pages, stack):
        self.isa, self.registers, self.sp, self.pc = isa, dict(registers), sp & WORD, None
        self.pages, self.stack = bytearray(pages), bytearray(stack)

    def at(self, address):
        if EXCHANGE <= address <= EXCHANGE + EXCHANGE_SIZE - 8:
            return self.pages, address - EXCHANGE
        if STACK <= address <= STACK + STACK_SIZE - 8:
            return self.stack, address - STACK
        raise ValueError(f"{address:#x} is neither in the stack nor in the exchange region")

    def load(self, address):
        region, offset = self.at(address)
        return int.from_bytes(region[offset:offset + 8], "little")

    def store(self, address, value):
        region, offset = self.at(address)
        region[offset:offset + 8] = (value & WORD).to_bytes(8, "little")


def base(state, name):
    """A register := X."""
    state.registers[register(state.isa, name)] = EXCHANGE


def load(state, names):
    for each in listed(state.isa, names):
        state.registers[each] = state.load(EXCHANGE + place(each))


def store(state, names):
    for each in listed(state.isa, names):
        state.store(EXCHANGE + place(each), state.registers[each])


def load_at(state, name, at):
    """A register from a place that has none."""
    state.registers[register(state.isa, name)] = state.load(EXCHANGE + at)


def sp_at(state, at, through=None):
    """sp from a place, on AArch64 through another register."""
    state.sp = state.load(EXCHANGE + at)
    if through:
        state.registers[register(state.isa, through)] = state.sp


def move_sp(state, by):
    state.sp = (state.sp + by) & WORD


def save(state, names):
    """The words of the save area, from sp on; a dash is a spare word."""
    for number, each in enumerate(words(state.isa, names)):
        if each:
            state.store(state.sp + 8 * number, state.registers[each])


def restore(state, names):
    for number, each in enumerate(words(state.isa, names)):
        if each:
            state.registers[each] = state.load(state.sp + 8 * number)


def words(isa, names):
    return [each for part in names.split() for each in ([None] if part == "-" else listed(isa, part))]


def call(state, name=None):
    """Calls what is in a register, or on AMD64 the address at its place. The call ends its stub, so RETURN is next."""
    if name:
        state.registers[register(state.isa, {"aarch64": "x30", "riscv": "ra"}[state.isa])] = RETURN
        state.pc = state.registers[register(state.isa, name)]
    else:
        move_sp(state, -8)
        state.store(state.sp, RETURN)
        state.pc = state.load(EXCHANGE + CALLED)


def leave(state, name=None):
    """Returns to what is in a register, or on AMD64 on the stack."""
    if name:
        state.pc = state.registers[register(state.isa, name)]
    else:
        state.pc = state.load(state.sp)
        move_sp(state, 8)


# docs/RULES.md, section 12, with the save areas of docs/FORMATS.md, section 5.
AREA = {"amd64": 56, "aarch64": 176, "riscv": 208}
ROWS = {
    "amd64": {
        "call": [(base, "r11"), (sp_at, SP_OF_CALL), (load, "rdi rsi rdx rcx r8 r9 rax"), (load, "xmm0..xmm7"),
                 (call,)],
        "entry": [(move_sp, -AREA["amd64"]), (save, "rbx rbp r12..r15 rdi"), (base, "r11"),
                  (store, "rdi rsi rdx rcx r8 r9 r10"), (store, "xmm0..xmm7"), (sp_at, SP_OF_BLOCK)],
        "exit": [(base, "r11"), (sp_at, SAVE_AREA), (restore, "rbx rbp r12..r15"), (load, "rax rdx xmm0 xmm1"),
                 (move_sp, AREA["amd64"]), (leave,)],
        "return": [(base, "r11"), (store, "rax rdx xmm0 xmm1"), (sp_at, SP_BEFORE)],
    },
    "aarch64": {
        "call": [(base, "x17"), (sp_at, SP_OF_CALL, "x16"), (load, "x0..x8"), (load, "v0..v7"),
                 (load_at, "x16", CALLED), (call, "x16")],
        "entry": [(move_sp, -AREA["aarch64"]), (save, "x19..x30 v8..v15 x8 -"), (base, "x16"), (store, "x0..x8"),
                  (store, "v0..v7"), (store, "x17"), (sp_at, SP_OF_BLOCK, "x16")],
        "exit": [(base, "x16"), (sp_at, SAVE_AREA, "x17"), (restore, "x19..x30 v8..v15"), (load, "x0 x1 v0..v3"),
                 (move_sp, AREA["aarch64"]), (leave, "x30")],
        "return": [(base, "x16"), (store, "x0 x1 v0..v3"), (sp_at, SP_BEFORE, "x17")],
    },
    "riscv": {
        "call": [(base, "t1"), (sp_at, SP_OF_CALL), (load, "a0..a7"), (load, "fa0..fa7"), (load_at, "t2", CALLED),
                 (call, "t2")],
        "entry": [(move_sp, -AREA["riscv"]), (save, "ra s0..s11 fs0..fs11 a0"), (base, "t2"), (store, "a0..a7"),
                  (store, "fa0..fa7"), (store, "t1"), (sp_at, SP_OF_BLOCK)],
        "exit": [(base, "t1"), (sp_at, SAVE_AREA), (restore, "ra s0..s11 fs0..fs11"), (load, "a0 a1 fa0 fa1"),
                 (move_sp, AREA["riscv"]), (leave, "ra")],
        "return": [(base, "t1"), (store, "a0 a1 fa0 fa1"), (sp_at, SP_BEFORE)],
    },
}
CLOSURE = {"amd64": "r10", "aarch64": "x17", "riscv": "t1"}
STEPS = {
    "amd64": {"call": 18, "entry": 25, "exit": 14, "return": 6},
    "aarch64": {"call": 22, "entry": 43, "exit": 31, "return": 9},
    "riscv": {"call": 21, "entry": 47, "exit": 34, "return": 7},
}


def after(state, name, stubs):
    """The state after a stub, by its rows; where no row sets pc it is behind the stub's last byte."""
    at, code = stubs[name]
    now = State(state.isa, state.registers, state.sp, state.pages, state.stack)
    now.pc = at + len(code)
    for row, *rest in ROWS[state.isa][name]:
        row(now, *rest)
    return now


# ---- the bytes, and states to begin with

def stub_bytes(isa):
    """The address and the bytes of each stub, as the test has them."""
    text = TEST.read_text()
    table = re.search(rf"^const {isa.upper()}: Stubs = Stubs {{\n(.*?)^}};", text, re.MULTILINE | re.DOTALL)[1]
    rows = re.findall(r'(\w+): Stub {\s+at: (0x[0-9A-F]+),\s+bytes: b"((?:\\x[0-9a-f]{2})+)",\s+}', table)
    found = {FIELDS[field]: (int(at, 16), bytes.fromhex(code.replace("\\x", ""))) for field, at, code in rows}
    assert sorted(found) == sorted(NAMES), f"{TEST.name} has not four stubs of {isa}"
    return found


def drawn(isa, name, number, source, pool):
    """A random state to run a stub in. What the stub takes for the address of code or of the stack is one; the first
    two states have the lowest and the highest. `pool` has random bytes, twice as many as the stack."""
    general = {"amd64": 16, "aarch64": 31, "riscv": 32}[isa]
    without = {"amd64": [4], "aarch64": [], "riscv": [0, 2]}[isa]  # sp, and the register that is zero
    registers = {("g", each): source.getrandbits(64) for each in range(general) if each not in without}
    vectors, width = {"amd64": (16, 128), "aarch64": (32, 128), "riscv": (32, 64)}[isa]
    registers |= {("f", each): source.getrandbits(width) for each in range(vectors)}
    start = source.randrange(STACK_SIZE)
    state = State(isa, registers, source.getrandbits(64), source.randbytes(PAGES), pool[start:start + STACK_SIZE])

    pushed = 8 if isa == "amd64" else 0
    align = 8 if isa == "amd64" else 16
    target = CODE + 4 * source.randrange(CODE_SIZE // 4 - 4)

    def address(below, above):
        low, high = STACK + below, STACK + STACK_SIZE - above
        low += -low % align
        high -= high % align
        return [low, high][number] if number < 2 else low + align * source.randrange((high - low) // align + 1)

    if name == "call":
        state.store(EXCHANGE + CALLED, target)
        if pushed:
            state.store(EXCHANGE + SP_OF_CALL, address(pushed, 0))
    if name == "entry":
        state.sp = address(AREA[isa], 0)
    if name == "exit":
        area = address(0, AREA[isa] + pushed)
        state.store(EXCHANGE + SAVE_AREA, area)
        state.store(area + {"amd64": 56, "aarch64": 88, "riscv": 0}[isa], target)
    if name == WHOLE:
        sp = address(pushed + AREA[isa], 0)
        state.store(EXCHANGE + CALLED, CODE)
        state.store(EXCHANGE + SP_OF_CALL, sp)
        state.store(EXCHANGE + SAVE_AREA, sp - pushed - AREA[isa])
    return state


# ---- Unicorn

class Processor:
    """A machine of Unicorn with the stubs' bytes in place, and one slot's, which runs from one state after another."""

    def __init__(self, isa, stubs, slot=b"", is_counted=True):
        import unicorn
        from unicorn import arm64_const, riscv_const, x86_const
        self.isa = isa
        target = {"aarch64": "aapcs64"}.get(isa, isa)
        self.unicorn, general, self.pc = trampolines.machine(target)
        self.sp = general[{"amd64": "rsp", "aarch64": "sp", "riscv": "x2"}[isa]]
        if isa == "amd64":
            self.numbers = {("g", AMD64_NAMES.index(name)): number for name, number in general.items() if name != "rsp"}
            self.numbers |= {("f", each): x86_const.UC_X86_REG_YMM0 + each for each in range(16)}
            self.flags, self.flag_bits = x86_const.UC_X86_REG_EFLAGS, 0x8D5
        elif isa == "aarch64":
            self.numbers = {("g", int(name[1:])): number for name, number in general.items() if name != "sp"}
            self.numbers |= {("f", each): arm64_const.UC_ARM64_REG_Q0 + each for each in range(32)}
            self.flags, self.flag_bits = arm64_const.UC_ARM64_REG_NZCV, 0xF << 28
            self.unicorn.reg_write(arm64_const.UC_ARM64_REG_CPACR_EL1, 3 << 20)  # floating registers may be used
        else:
            self.numbers = {("g", int(name[1:])): number for name, number in general.items() if name != "x2"}
            self.numbers |= {("f", each): riscv_const.UC_RISCV_REG_F0 + each for each in range(32)}
            self.flags = None
            self.unicorn.reg_write(riscv_const.UC_RISCV_REG_MSTATUS, 1 << 13)  # the same
        # what is no code jumps to itself
        filling = {"amd64": b"\xeb\xfe\xeb\xfe", "aarch64": b"\0\0\0\x14", "riscv": b"\x6f\0\0\0"}[isa]
        self.code = bytearray(filling * (STUBS_SIZE // 4))
        for at, code in stubs.values():
            self.code[at - STUBS:at - STUBS + len(code)] = code
        self.slots = slot + filling * ((CODE_SIZE - len(slot)) // 4)
        for address, size in (STUBS, STUBS_SIZE), (CODE, CODE_SIZE), (EXCHANGE, PAGES), (STACK, STACK_SIZE):
            self.unicorn.mem_map(address, size)
        self.unicorn.mem_write(STUBS, bytes(self.code))
        self.unicorn.mem_write(CODE, self.slots)
        self.end, self.most, self.done = None, None, []
        if is_counted:
            self.unicorn.hook_add(unicorn.UC_HOOK_CODE, self.looks)

    def looks(self, _, address, size, __):
        """Called before each instruction: stops at the end, and where there are far too many."""
        if address == self.end or len(self.done) == self.most:
            self.unicorn.emu_stop()
        else:
            self.done.append((address, size))

    def begin(self, state):
        """Writes a state into registers and memory, and random flags."""
        for each, value in state.registers.items():
            self.unicorn.reg_write(self.numbers[each], value)
        self.unicorn.reg_write(self.sp, state.sp)
        if self.flags:
            self.unicorn.reg_write(self.flags, self.flag_bits if state.stack[0] & 1 else 0)
        self.unicorn.mem_write(EXCHANGE, bytes(state.pages))
        self.unicorn.mem_write(STACK, bytes(state.stack))

    def flag_word(self):
        return self.unicorn.reg_read(self.flags) if self.flags else None

    def run(self, state, at, end, most):
        """Runs from an address to another, or so many instructions, and gives the state then, and whether flags and
        code are as before. `done` has each instruction's address and size."""
        self.end, self.most, self.done = end, most, []
        self.begin(state)
        flags = self.flag_word()
        self.unicorn.emu_start(at, 0)
        read, memory = self.unicorn.reg_read, self.unicorn.mem_read
        seen = State(self.isa, {each: read(self.numbers[each]) for each in state.registers}, read(self.sp),
                     memory(EXCHANGE, PAGES), memory(STACK, STACK_SIZE))
        seen.pc = read(self.pc)
        is_code_same = memory(STUBS, STUBS_SIZE) == self.code and memory(CODE, CODE_SIZE) == self.slots
        return seen, self.flag_word() == flags, is_code_same


# ---- comparing

def first_difference(wanted, seen, start):
    """The first byte that differs, as a text."""
    at = next((number for number, (one, other) in enumerate(zip(wanted, seen)) if one != other), None)
    return f"the byte at {start + at:#x} is {seen[at]:#04x}, not {wanted[at]:#04x}"


def wrong_in(processor, state, wanted, at, steps):
    """What so many instructions from an address on do to a state that the rules do not say, as texts."""
    seen, are_flags_same, is_code_same = processor.run(state, at, wanted.pc, 2 * steps)
    wrong = []
    if len(processor.done) != steps:
        wrong.append(f"{len(processor.done)} instructions, not {steps}")
    for what in "pc", "sp":
        if getattr(seen, what) != getattr(wanted, what):
            wrong.append(f"{what} is {getattr(seen, what):#x}, not {getattr(wanted, what):#x}")
    for each, value in wanted.registers.items():
        # of a vector register that is loaded the rules have the low 64 bits; any other keeps all
        bits = WORD if value != state.registers[each] else -1
        if (seen.registers[each] ^ value) & bits:
            wrong.append(f"{each[0]}{each[1]} is {seen.registers[each]:#x}, not {value:#x}")
    if seen.pages != wanted.pages:
        wrong.append(first_difference(wanted.pages, seen.pages, EXCHANGE))
    if seen.stack != wanted.stack:
        wrong.append(first_difference(wanted.stack, seen.stack, STACK))
    if not are_flags_same:
        wrong.append("flags change")
    if not is_code_same:
        wrong.append("code changes")
    return wrong


def wrong_in_stub(processor, name, stubs, state):
    return wrong_in(processor, state, after(state, name, stubs), stubs[name][0], STEPS[state.isa][name])


def wrong_in_call(processor, stubs, state):
    """The same of a whole call: Call, the slot's three instructions, Entry, and then Exit and Return. The callee does
    nothing between."""
    isa, steps = state.isa, STEPS[state.isa]
    entered = after(state, "call", stubs)
    entered.registers[register(isa, CLOSURE[isa])] = CODE
    entered = after(entered, "entry", stubs)
    wrong = wrong_in(processor, state, entered, stubs["call"][0], steps["call"] + trampolines.STEPS + steps["entry"])
    back = after(after(entered, "exit", stubs), "return", stubs)
    return wrong + wrong_in(processor, entered, back, stubs["exit"][0], steps["exit"] + steps["return"])


def states(isa, name, seed):
    """The states of a stub, one after another."""
    source = random.Random(f"{seed} {isa} {name}")
    pool = source.randbytes(2 * STACK_SIZE)
    for number in range(STATES):
        yield drawn(isa, name, number, source, pool)


def failures(isa, name, stubs, seed):
    """For each state of a stub, or of a whole call, what is wrong there, in order."""
    import unicorn
    target = next(target for target, each in ISA.items() if each == isa)
    slot = trampolines.slot_bytes()[target] if name == WHOLE else b""
    processor = Processor(isa, stubs, slot)
    for state in states(isa, name, seed):
        try:
            if name == WHOLE:
                yield wrong_in_call(processor, stubs, state)
            else:
                yield wrong_in_stub(processor, name, stubs, state)
        except unicorn.UcError as fault:
            yield [f"not run: {fault}"]
            processor = Processor(isa, stubs, slot)


def compare(target, seed):
    """In how many states the stubs of a target, and a whole call, do as the rules say; what happens in the others."""
    isa = ISA[target]
    stubs = stub_bytes(isa)
    passed, failed = 0, []
    for name in [*NAMES, WHOLE]:
        for number, wrong in enumerate(failures(isa, name, stubs, f"{seed} {target}")):
            if wrong:
                failed.append(f"{name}, state {number}: {'; '.join(wrong[:MOST_TOLD])}")
            else:
                passed += 1
    return passed, failed


# ---- planted errors

def left_out(isa, code):
    """The instruction is left out: one that does nothing stands in its place."""
    if isa == "amd64":
        return {7: b"\x0f\x1f\x80", 8: b"\x0f\x1f\x84\0", 9: b"\x66\x0f\x1f\x84\0"}[len(code)] + bytes(4)
    return {"aarch64": b"\x1f\x20\x03\xd5", "riscv": b"\x13\0\0\0"}[isa]


def store_eight_off(isa, code):
    """It stores 8 bytes from where it should."""
    if isa == "amd64":
        return code[:-4] + (int.from_bytes(code[-4:], "little") ^ 8).to_bytes(4, "little")
    return (int.from_bytes(code, "little") ^ {"aarch64": 1 << 10, "riscv": 8 << 7}[isa]).to_bytes(4, "little")


def address_off(isa, code):
    """The least part of the exchange region's address is off by one; on RISC-V auipc's."""
    if isa == "amd64":
        return code[:-4] + (int.from_bytes(code[-4:], "little") + 1).to_bytes(4, "little")
    return (int.from_bytes(code, "little") + {"aarch64": 1 << 29, "riscv": 1 << 12}[isa]).to_bytes(4, "little")


def other_register(isa, code):
    """Its register is the neighbour, the last bit of whose number differs."""
    if isa == "amd64":
        at = len(code) - (6 if code[-5] == 0x24 else 5)
        return code[:at] + bytes([code[at] ^ 8]) + code[at + 1:]
    return (int.from_bytes(code, "little") ^ {"aarch64": 1, "riscv": 1 << 7}[isa]).to_bytes(4, "little")


def other_stored(isa, code):
    """The same of a store."""
    if isa == "riscv":
        return (int.from_bytes(code, "little") ^ 1 << 20).to_bytes(4, "little")
    return other_register(isa, code)


def other_base(isa, code):
    """It stores by the address in another register: rbx, x17, t1."""
    if isa == "amd64":
        return bytes([code[0] ^ 1]) + code[1:]
    return (int.from_bytes(code, "little") ^ {"aarch64": 1 << 5, "riscv": 1 << 15}[isa]).to_bytes(4, "little")


# Numbers of instructions: in Entry a store into the exchange region, and two words of the save area whose registers are
# neighbours; in Exit sp moved back; in Call two loads of neighbours.
AT = {
    "amd64": {"store": 11, "words": 3, "back": 12, "pair": 2},
    "aarch64": {"store": 24, "words": 2, "back": 29, "pair": 3},
    "riscv": {"store": 29, "words": 2, "back": 32, "pair": 3},
}


def errors_of(isa):
    """What is planted: its name, the stub, and by their numbers the instructions, with what becomes of each."""
    of = AT[isa]
    return [
        ("a load left out of Call", "call", {8: left_out}),
        ("a word that Exit does not restore", "exit", {5: left_out}),
        ("a store into the exchange region 8 bytes off", "entry", {of["store"]: store_eight_off}),
        ("such a store by another register's address", "entry", {of["store"]: other_base}),
        ("a store into the save area 8 bytes off", "entry", {3: store_eight_off}),
        ("two words of the save area exchanged", "entry", {of["words"]: other_stored, of["words"] + 1: other_stored}),
        ("sp that Exit does not move back", "exit", {of["back"]: left_out}),
        ("sp that Return does not set", "return", {-1: left_out}),
        ("the exchange region's address off by one, on RISC-V auipc's part", "return", {0: address_off}),
        ("two registers exchanged in Call", "call", {of["pair"]: other_register, of["pair"] + 1: other_register}),
        ("no call at the end of Call", "call", {-1: left_out}),
    ]


def spoilt(isa, stubs, name, changes, seed):
    """The stubs with some instructions of one changed. Where each stands is where Unicorn does it."""
    at, code = stubs[name]
    processor = Processor(isa, stubs)
    state = next(states(isa, name, seed))
    processor.run(state, at, after(state, name, stubs).pc, 2 * STEPS[isa][name])
    wrong = bytearray(code)
    for number, change in changes.items():
        address, size = processor.done[number]
        start = address - at
        wrong[start:start + size] = change(isa, bytes(code[start:start + size]))
    assert len(wrong) == len(code) and wrong != code
    return stubs | {name: (at, bytes(wrong))}


def planted(target, seed):
    """For each planted error after how many states it is found, or None."""
    isa = ISA[target]
    stubs = stub_bytes(isa)
    found = {}
    for error, name, changes in errors_of(isa):
        wrong = failures(isa, name, spoilt(isa, stubs, name, changes, seed), seed)
        found[error] = next((number + 1 for number, each in enumerate(wrong) if each), None)
    return found


def told(target, seed):
    """Compares, and plants errors: how many comparisons pass, how many fail, and the lines that tell of it."""
    passed, failed = compare(target, seed)
    states_of = planted(target, seed)
    found = [number for number in states_of.values() if number]
    lines = [f"{target}, stubs: {passed} states passed, {len(failed)} failed; {len(found)} of {len(states_of)} planted "
             f"errors found" + (f", after {min(found)} to {max(found)} states" if found else "")]
    lines += [f"  FAILED {text}" for text in failed]
    lines += [f"  FAILED: not found: {error}" for error, number in states_of.items() if not number]
    return passed + len(found), len(failed) + len(states_of) - len(found), lines


def main():
    seed = sys.argv[1] if len(sys.argv) > 1 else "1"
    passed = failed = 0
    for target in ISA:
        good, bad, lines = told(target, seed)
        passed, failed = passed + good, failed + bad
        print(*lines, sep="\n", flush=True)
    print(f"{passed} passed, {failed} failed")
    return 1 if failed or not passed else 0


if __name__ == "__main__":
    sys.exit(main())
