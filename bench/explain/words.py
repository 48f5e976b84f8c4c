"""The words of `acdm explain`, written from docs/EXPLAIN.md over the states of the model, apart from the program.

`explained` gives the lines behind four spaces on a program's bytes, and the last line.
"""
import pathlib
import sys
from datetime import datetime, timedelta

sys.path.insert(0, str(pathlib.Path(__file__).resolve().parents[1] / "model"))

import programs as model  # noqa: E402

STACK_END = model.STACK + model.STACK_BYTES
NEAR = 1 << 31
EPOCH = datetime(1970, 1, 1)
YEARS_2000 = range((datetime(2000, 1, 1) - EPOCH) // timedelta(minutes=1), (datetime(2100, 1, 1) - EPOCH) // timedelta(minutes=1))
A_VALUE = "a value on every way here"


# --- ranges


def span(first, last):
    return first if first == last else f"{first} to {last}"


def minute(number):
    return (EPOCH + timedelta(minutes=number)).strftime("%Y-%m-%dT%H:%M:%SZ")


def end(word, least, offset):
    """An end of a range whose least word is this, by an offset further on: as a number, or from the record where the range begins nearer to it, else from the end of the stack."""
    if least < model.RECORD:
        return str(word + offset)
    if least < model.STACK - NEAR and word < model.STACK:
        return f"record{word - model.RECORD + offset:+}"
    return f"stack{word - STACK_END + offset:+}"


def words(given, offset=0):
    low, high = given
    if given == model.FULL:
        return "any number"
    if high >= model.STACK + NEAR:
        signed = low >= 2**63
        return span(*(str((word - 2**64 if signed else word) + offset) for word in given))
    text = span(end(low, low, offset), end(high, low, offset))
    if low in YEARS_2000 and high in YEARS_2000 and not offset:
        text += f" ({span(minute(low), minute(high))})"
    return text


# --- states


def runs(marks):
    """The stretches of bytes that are marked, each from its first to behind its last."""
    ends = [place for place in range(model.STACK_BYTES + 1) if (marks >> place & 1) != (marks << 1 >> place & 1)]
    return zip(ends[::2], ends[1::2])


def stretches(marks):
    return ", ".join(span(f"stack{first - 512:+}", f"stack{end - 513:+}") for first, end in runs(marks))


def known(state):
    """The lines on a state."""
    if state is None:
        return ["no way leads here"]
    registers = [f"r{number} = {words(given)}" for number, given in enumerate(state.registers) if given]
    kept = [f"stack{8 * place - 512:+} = {words(given)}" for place, given in enumerate(state.words) if given][::-1]
    lines = [", ".join(registers)]
    lines += ["stored: " + stretches(state.marks)] if state.marks else []
    return lines + (["kept: " + ", ".join(kept)] if kept else [])


# --- reasons of a program that is refused


class Refusal:
    """A fault at a slot, with what is known there and which edges came with what."""

    def __init__(self, program, slot, states, arrivals):
        self.program, self.slot, self.states, self.arrivals = program, slot, states, arrivals
        self.insn, self.state = program[slot], states[slot]

    def lost(self, register):
        """Where a register is left without a word."""
        at = self.slot
        while unset := [slot for slot, after in self.arrivals[at] if not after.registers[register]]:
            if self.states[unset[-1]].registers[register]:
                return f"nothing since the call at slot {unset[-1]}"
            if len(unset) < len(self.arrivals[at]):
                return f"nothing on the way from slot {unset[-1]} to slot {at}"
            at = unset[-1]
        return "nothing"

    def target(self):
        goal = model.target(self.insn, self.slot)
        reason = "not later" if goal <= self.slot else "the second of a wide load" if goal < len(self.program) else "behind the last"
        return [f"target: known slot {goal} ({reason}), wanted the slot of a later instruction"]

    def argument(self, wanted, register, found):
        low, high = wanted
        return f"argument {register} of helper {self.insn.imm}, r{register}: known {found}, wanted {words(wanted)}"

    def unset(self):
        register = next(number for number in model.reads(self.insn, model.HELPERS) if not self.state.registers[number])
        if self.insn.kind == "call":
            return [self.argument(model.HELPERS[self.insn.imm].arguments[register - 1], register, self.lost(register))]
        return [f"r{register}: known {self.lost(register)}, wanted {A_VALUE}"]

    def arguments(self):
        for register, (least, most) in enumerate(model.HELPERS[self.insn.imm].arguments, 1):
            low, high = self.state.registers[register]
            if low < least or most < high:
                return [self.argument((least, most), register, words((low, high)))]

    def access(self):
        """The base register of a load or a store, and how many bytes it touches."""
        base = self.insn.dst if self.insn.kind == "store" else self.insn.src
        return base, self.insn.width // 8

    def address(self, in_record):
        base, size = self.access()
        given, offset = self.state.registers[base], self.insn.off
        first, last = model.place(self.insn, self.state)
        over = first < model.RECORD + 128 and last >= model.STACK

        def wanted(offset):
            record = f"{span(f'record{-offset:+}', f'record{128 - size - offset:+}')} or " if in_record else ""
            return record + span(f"stack{-512 - offset:+}", f"stack{-size - offset:+}")

        neither = ", as a whole in neither region, wanted all of it in " + ("one: " if in_record else "the stack: ")
        lines = [f"address [r{base}{offset:+}], size {size}: known {words(given, offset)}{neither if over else ', wanted '}{wanted(0)}"]
        return lines + ([f"r{base}: known {words(given)}, wanted {wanted(offset)}"] if offset else [])

    def stored(self):
        base, _ = self.access()
        first, last = (address - model.STACK for address in model.place(self.insn, self.state))
        found = stretches(self.state.marks & ((1 << last + 1) - (1 << first)))
        return [f"bytes at [r{base}{self.insn.off:+}]: known as stored {found or 'none'}, wanted {span(f'stack{first - 512:+}', f'stack{last - 512:+}')}"]

    def lines(self, fault):
        match fault:
            case 306:
                return self.target()
            case 307:
                return ["next: known no slot, wanted an exit as the last instruction"]
            case 308:
                return self.unset()
            case 309:
                return self.address(self.insn.kind != "store")
            case 310:
                return self.stored()
            case 311:
                return self.address(False)
            case 312:
                return [f"helper: known {self.insn.imm % 2**32}, wanted one of {', '.join(map(str, model.HELPERS))}"]
            case 313:
                return self.arguments()
        return ["destination: known r10, wanted r0 to r9"]


# --- reasons of bytes that encode no program

FOREIGN = {0x8D: "a call by a register", 0x0D: "a jump by a register"}
FOREIGN |= dict.fromkeys((0xC3, 0xCB, 0xD3, 0xDB), "an atomic operation")
FOREIGN |= dict.fromkeys((0x20, 0x28, 0x30, 0x40, 0x48, 0x50), "a load of a packet")
TAIL = "the second slot of a wide load"
NAMES = {"wide": "a wide load", "load": "a load", "loads": "a load", "store": "a store", "call": "a call", "exit": "an exit", "ja": "a jump", "ja32": "a jump"}
NAMES |= dict.fromkeys(("little", "big", "swap"), "a change of byte order") | dict.fromkeys(model.CONDITIONS, "a conditional jump")


def name_of(opcode, kind, source, offset):
    if kind == "call" and source in (1, 2):
        return "a call of a function of the " + ("program" if source == 1 else "kernel")
    if kind == "wide" and 1 <= source <= 6:
        return "the address of a map, a variable or a function"
    if opcode == 0xBF and offset == 1:
        return "a move between address spaces"
    return NAMES.get(kind, "arithmetic")


def numbers(values):
    *front, last = map(str, values)
    return f"{', '.join(front)} or {last}" if front else last


def is_tail(code, slot):
    """Whether a slot is the second of a wide load, where all before it are instructions."""
    at = 0
    while at < slot:
        at += 2 if code[8 * at] == 0x18 else 1
    return at > slot


def slot_reason(code, fault, slot):
    """The line on a slot that encodes no instruction."""
    raw = code[8 * slot : 8 * slot + 8]
    told = raw.hex(" ")
    opcode = raw[0]
    fields = {"source": raw[1] >> 4, "destination": raw[1] & 15}
    fields |= {"offset": int.from_bytes(raw[2:4], "little", signed=True), "immediate": int.from_bytes(raw[4:], "little", signed=True)}
    if fault == 303:
        name = f", {FOREIGN[opcode]}" if opcode in FOREIGN else ""
        return f"opcode of {told}{name}: known {opcode:02x}, wanted one that programs may have"
    if fault == 304 and is_tail(code, slot):
        if opcode:
            return f"opcode of {told}, {TAIL}: known {opcode:02x}, wanted 00"
        field = next(field for field in ("destination", "source", "offset") if fields[field])
        return f"{field} of {told}, {TAIL}: known {fields[field]}, wanted 0"
    kind, _, _, destinations, sources, offsets, immediates = model.form_of(opcode)
    if fault == 315:
        return f"second slot of {told}, a wide load: known none, wanted one behind it"
    name = name_of(opcode, kind, fields["source"], fields["offset"])
    if fault == 305:
        field = "destination" if fields["destination"] > 10 else "source"
        return f"{field} of {told}, {name}: known {fields[field]}, wanted 0 to 10"
    allowed = {"source": sources, "destination": destinations, "offset": offsets, "immediate": immediates}
    for field, values in allowed.items():
        if values not in (model.ANY, model.REGISTER) and fields[field] not in values:
            return f"{field} of {told}, {name}: known {fields[field]}, wanted {numbers(values)}"


def is_hexadecimal(text):
    strip = [word.removeprefix("0x") if word.startswith("0x") else word.removeprefix("0X") for word in text.split()]
    return bool(strip) and all(word and set(word) <= set("0123456789abcdefABCDEF") for word in strip)


def bytes_reason(code, fault, slot):
    """The line on bytes that encode no program."""
    if code.startswith(b"\x7fELF"):
        return "file: known an object file (ELF), wanted one section (llvm-objcopy -O binary)"
    text = code.decode("ascii") if code.isascii() else ""
    if '"program"' in text:
        return "file: known a line that loads a program, wanted the bytes that its program tells (xxd -r -p)"
    if is_hexadecimal(text):
        return "file: known hexadecimal text, wanted the bytes that it tells (xxd -r -p)"
    if fault == 301:
        return f"bytes: known {len(code)}, wanted 8 for each slot"
    if fault == 302:
        return "bytes: known over 32768, wanted 32768 at most"
    return slot_reason(code, fault, slot)


# --- all of it


def explained(code):
    """The lines behind four spaces on these bytes, and the last line."""
    try:
        program = model.decode(code)
    except model.Fault as fault:
        return [bytes_reason(code, fault.code, fault.slot), f"refused {fault.code} {fault.slot}"]
    states = [model.first_state()] + [None] * (len(program) - 1)
    arrivals = [[] for _ in program]
    lines = []
    for slot, insn in enumerate(program):
        if insn is None:
            continue
        state = states[slot]
        lines += known(state)
        faults = list(model.shape_faults(program, slot, insn, model.HELPERS))
        faults += model.state_faults(insn, state, model.HELPERS) if state else []
        if faults:
            refusal = Refusal(program, slot, states, arrivals)
            return lines + refusal.lines(min(faults)) + [f"refused {min(faults)} {slot}"]
        for goal, after in model.edges(insn, slot, state, model.HELPERS) if state else ():
            arrivals[goal].append((slot, after))
            states[goal] = states[goal].join(after) if states[goal] else after
    return lines + [f"accepted {len(program)}"]
