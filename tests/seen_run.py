"""Runs a proved program, an x86-64 one on any machine, and sees each instruction, and each load and store that it makes: by the emulator
library Unicorn and the disassembler Capstone.

Unicorn stops at each instruction, and Capstone tells what memory it names; whether it loads or stores is told here.
(Unicorn's own word on loads is not complete on every machine, and Capstone's not right for every instruction.) A proved
program takes four functions from the C library (memcpy, memset, read, write), which stand here in Python.
"""
import struct
import sys

from counting import fail

DEBIANS = "/usr/lib/python3/dist-packages"  # where Debian puts them, for a Python that is not Debian's
MOVED, STACK, STUBS = 0x400000, 0x7F0000000000, 0x600000000000  # where the program, its stack and what stands in for the library lie
STACK_SIZE, PAGE = 1 << 20, 1 << 12
RETURN, JUMP = b"\xc3", b"\xff\x25\0\0\0\0"  # ret; jmp to the place that follows
STUB = 32  # octets of a stand-in
LONGEST = 15  # octets of an instruction
SYMBOLS, RELOCATIONS, DYNAMIC_SYMBOLS, LOADED = 2, 4, 11, 1  # kinds of sections, and of segments
OF_A_SYMBOL, RELATIVE = (6, 7), 8  # kinds of relocations
# what an instruction does to memory that it names first: nothing; a load; a store, by these beginnings; or both. Named later, it is loaded
NO_ACCESS, LOADS, STORES = ("lea", "nop"), ("bt", "call", "cmp", "div", "idiv", "imul", "jmp", "mul", "push", "test"), ("mov", "set")
LOADS_AND_STORES = ("adc", "add", "and", "dec", "inc", "neg", "not", "or", "rol", "ror", "sar", "sbb", "shl", "shr", "sub", "xor")


def libraries():
    """Unicorn with its registers, and Capstone; or a word on where they are to be had."""
    if DEBIANS not in sys.path:
        sys.path.append(DEBIANS)
    try:
        import capstone
        import unicorn
        import unicorn.x86_const
    except ImportError:
        fail("not found, and needed to see what is read: Debian's packages python3-unicorn and python3-capstone")
    return unicorn, unicorn.x86_const, capstone


class Program:
    """An executable file, as the loader sees it."""

    def __init__(self, path):
        with open(path, "rb") as file:
            self.octets = file.read()
        self.path = path
        headers, sections = struct.unpack_from("<QQ", self.octets, 32)
        size, many, section, sections_many = struct.unpack_from("<HHHH", self.octets, 54)
        segments = [self.unpacked("<IIQQQQQQ", headers + size * number) for number in range(many)]
        self.segments = [segment for segment in segments if segment[0] == LOADED]
        self.sections = [self.unpacked("<IIQQQQIIQQ", sections + section * number) for number in range(sections_many)]

    def unpacked(self, form, place):
        return struct.unpack_from(form, self.octets, place)

    def entries(self, kind, form):
        """The entries of the sections of that kind, each with the section that its names are in."""
        for _, found, _, _, place, length, link, *_ in self.sections:
            if found == kind:
                for at in range(place, place + length, struct.calcsize(form)):
                    yield self.unpacked(form, at), link

    def named(self, kind):
        """Names and places of symbols, in their order."""
        for (name, *_, value, _), link in self.entries(kind, "<IBBHQQ"):
            start = self.sections[link][4] + name
            yield self.octets[start : self.octets.index(b"\0", start)].decode(), value

    def place(self, name):
        places = dict(self.named(SYMBOLS))
        if name not in places:
            fail(f"{self.path}: {name} is no function of its own")
        return MOVED + places[name]

    def start(self):
        """Where what is proved of the program begins, behind what the compiler puts before it in `main`."""
        return self.place(next((name for name, _ in self.named(SYMBOLS) if name.endswith("::main+start")), "main"))


class Run:
    """One run of a program. `load` and `store` are told place and size of each access, `step` of each instruction."""

    def __init__(self, program, given, load, store, step):
        self.unicorn, self.registers, self.capstone = libraries()
        self.program, self.given, self.printed = program, given, b""
        self.load, self.store, self.step = load, store, step
        self.machine = self.unicorn.Uc(self.unicorn.UC_ARCH_X86, self.unicorn.UC_MODE_64)
        self.disassembler = self.capstone.Cs(self.capstone.CS_ARCH_X86, self.capstone.CS_MODE_64)
        self.disassembler.detail = True
        self.stubs, self.decoded, self.fault = 0, {}, None
        self.put_into_memory()

    # ---- what the loader does

    def put_into_memory(self):
        spans = [(at // PAGE, (at + in_memory - 1) // PAGE) for _, _, _, at, _, _, in_memory, _ in self.program.segments]
        for page in sorted({page for first, last in spans for page in range(first, last + 1)}):
            self.machine.mem_map(MOVED + page * PAGE, PAGE)
        self.machine.mem_map(STACK, STACK_SIZE)
        self.machine.mem_map(STUBS, PAGE)
        for _, _, place, at, _, in_file, _, _ in self.program.segments:
            self.machine.mem_write(MOVED + at, self.program.octets[place : place + in_file])
        names = [name for name, _ in self.program.named(DYNAMIC_SYMBOLS)]
        for (place, info, addend), _ in self.program.entries(RELOCATIONS, "<QQq"):
            kind, name = info % (1 << 32), names[info >> 32]
            if kind == RELATIVE:
                self.put_place(MOVED + place, MOVED + addend)
            elif kind in OF_A_SYMBOL and hasattr(self, "c_" + name):
                self.put_place(MOVED + place, self.stub(getattr(self, "c_" + name)))
        own = [page for first, last in spans for page in (first, last)]
        self.hook(self.instruction, MOVED + min(own) * PAGE, MOVED + (max(own) + 1) * PAGE)

    def put_place(self, at, place):
        self.machine.mem_write(at, struct.pack("<Q", place))

    def stub(self, acts, code=RETURN):
        """A place in memory at which something is done, before the code there runs."""
        place = STUBS + STUB * self.stubs
        self.stubs += 1
        self.machine.mem_write(place, code)
        self.at(place, acts)
        return place

    # ---- what is seen

    def hook(self, acts, start, end):
        """What fails in a hook ends the run, and is told behind it."""

        def guarded(machine, place, size, _):
            try:
                acts(place, size)
            except BaseException as fault:
                self.fault = self.fault or fault
                machine.emu_stop()

        self.machine.hook_add(self.unicorn.UC_HOOK_CODE, guarded, begin=start, end=end - 1)

    def at(self, place, acts):
        """Does something whenever the run comes to a place."""
        self.hook(lambda *_: acts(), place, place + 1)

    def on_return(self, acts):
        """To be asked at the first instruction of a function: does something when it returns."""
        top = self.register("RSP")
        home = bytes(self.machine.mem_read(top, 8))
        self.put_place(top, self.stub(acts, JUMP + home))

    def instruction(self, place, size):
        self.step()
        if place not in self.decoded:
            self.decoded[place] = list(self.operands(place, size))
        for tell, octets, base, index, scale, offset in self.decoded[place]:
            at = offset + (self.machine.reg_read(base) if base else 0) + (scale * self.machine.reg_read(index) if index else 0)
            tell(at % (1 << 64), octets)

    def operands(self, place, size):
        """Whom to tell of the memory that an instruction names, and where it is. (What stands on the stack's top is not among it.)"""
        decoded = next(self.disassembler.disasm(bytes(self.machine.mem_read(place, min(size, LONGEST))), place))
        for number, operand in enumerate(decoded.operands):
            if operand.type == self.capstone.x86.X86_OP_MEM and decoded.mnemonic not in NO_ACCESS:
                found = operand.mem
                base, index = (self.numbered(decoded, register) for register in (found.base, found.index))
                known = place + decoded.size if found.base == self.capstone.x86.X86_REG_RIP else 0
                for tell in self.told(decoded.mnemonic, number):
                    yield tell, operand.size, base, index, found.scale, found.disp + known

    def told(self, mnemonic, number):
        if number > 0 or mnemonic in LOADS:
            return [self.load]
        if mnemonic.startswith(STORES):
            return [self.store]
        if mnemonic not in LOADS_AND_STORES:
            fail(f"{self.program.path}: it is not known here what `{mnemonic}` does to memory")
        return [self.load, self.store]

    def numbered(self, decoded, register):
        """Unicorn's number of a register of Capstone's; 0 for none, and for that of the next instruction, which is known."""
        if register in (0, self.capstone.x86.X86_REG_RIP):
            return 0
        return getattr(self.registers, "UC_X86_REG_" + decoded.reg_name(register).upper())

    # ---- the C library's functions

    def register(self, name):
        return self.machine.reg_read(getattr(self.registers, "UC_X86_REG_" + name))

    def arguments(self):
        return [self.register(name) for name in ("RDI", "RSI", "RDX")]

    def returns(self, value):
        self.machine.reg_write(self.registers.UC_X86_REG_RAX, value)

    def c_memcpy(self):
        to, of, size = self.arguments()
        self.load(of, size)
        self.machine.mem_write(to, bytes(self.machine.mem_read(of, size)))
        self.store(to, size)
        self.returns(to)

    def c_memset(self):
        to, octet, size = self.arguments()
        self.machine.mem_write(to, bytes([octet % 256]) * size)
        self.store(to, size)
        self.returns(to)

    def c_read(self):
        _, to, size = self.arguments()
        piece, self.given = self.given[:size], self.given[size:]
        self.machine.mem_write(to, piece)
        self.store(to, len(piece))
        self.returns(len(piece))

    def c_write(self):
        _, of, size = self.arguments()
        self.load(of, size)
        self.printed += bytes(self.machine.mem_read(of, size))
        self.returns(size)

    def go(self):
        """From the first instruction of the program to its return: what was printed."""
        top = STACK + STACK_SIZE - PAGE
        end = self.stub(self.machine.emu_stop)
        self.put_place(top - 8, end)
        self.machine.reg_write(self.registers.UC_X86_REG_RSP, top - 8)
        try:
            self.machine.emu_start(self.program.start(), end)
        except self.unicorn.UcError as fault:
            self.fault = self.fault or fault
        if self.fault:
            raise self.fault
        return self.printed.decode()
