"""What is known of an instruction's registers whatever the run: constants, places of the frame,
pointers to structures.

Each function that runs is analysed once. A place's state is what all ways to it agree on."""
from __future__ import annotations

from typing import Hashable, NamedTuple, Optional

from ..recording.instruction import A0, ALU, JUMP, LOAD, SP, STORE
from .operation import CALLEE_SAVED, CALLER_SAVED, GP, T0, Operation
from .program import LONGEST_FUNCTION, CheckedFunction, CheckedProgram
from .value import (ABSOLUTE, ENTRY, FRAME, NUMBER, POINTER, UNKNOWN, WILD, State, Value,
                    sum_of_values, meet, mixed, moved_value, multiplied, subtracted)

SAVE = "__riscv_save_"      # functions of -msave-restore, that make their caller's frame
STEPS_EACH = 200            # steps for each instruction of a function, at most: some 10 are usual
# Of a place by new states; after them it only loses facts, so that it ends
MOST_VISITS = 8


class Edge(NamedTuple):
    source: int
    to: int


class RegisterFacts:
    """operations   {address: instruction} of functions that were analysed
    slots        {first address of a function: {offset from the frame's begin: the register that it
                 saves there}}
    changed      functions whose code isn't the file's, of which nothing is known"""

    def __init__(self, program: CheckedProgram) -> None:
        self.program = program
        self.operations: dict[int, Operation] = {}
        # {(address, word): instruction that ran}
        self.kept: dict[tuple[int, int], Operation] = {}
        self.slots: dict[int, dict[int, int]] = {}
        self.changed: set[int] = set()
        self.pointer = next((each.address for each in program.elf.symbols
                             if each.name == "__global_pointer$"), None)

    def at(self, pc: int, word: int) -> Operation:
        """The instruction of an address, which a row has with this word."""
        found = self.kept.get((pc, word))
        if found is not None:
            return found
        function = self.program.function_at(pc)
        if function.first not in self.slots:
            self.slots[function.first] = {}
            if function.end - function.first <= LONGEST_FUNCTION:
                FunctionFlow(self, function).run()
        found = self.operations.get(pc)
        if found is None or found.word != word:
            if found is not None:
                self.forget(function)
            found = self.operations[pc] = Operation(pc, word)
        self.kept[pc, word] = found
        return found

    def forget(self, function: CheckedFunction) -> None:
        """Its code was changed while it ran."""
        self.changed.add(function.first)
        self.kept.clear()
        self.slots[function.first] = {}
        for pc in range(function.first, function.end, 4):
            found = self.operations.get(pc)
            if found is not None:
                self.operations[pc] = Operation(pc, found.word)

    def result(self, one: Operation) -> Optional[Value]:
        """What is known of the register that an instruction without an access writes."""
        base = one.base
        other = one.other
        if one.name == "lui":
            return Value(ABSOLUTE, one.imm)
        if one.name == "addi":
            return moved_value(base, one.imm) if one.rs1 else Value(NUMBER, one.imm)
        if one.name == "add":
            return sum_of_values(base, other)
        if one.name == "sub":
            return subtracted(base, other)
        if one.name == "slli":
            return (base._replace(offset=base.offset << one.imm, more=0)
                    if base and base.to in (NUMBER, WILD) else None)
        if one.name == "mul":
            return multiplied(base, other)
        return mixed(base, other) if one.name in ("sll", "or", "xor") else None

    def loaded(self, base: Value, offset: int) -> Optional[Value]:
        """What a loaded word is by the type of the place."""
        program = self.program
        kind = 0
        if base.to == POINTER:
            kind = program.types.pointee_at(base.more, offset)
        elif base.to == ABSOLUTE:
            there = program.object_at(offset)
            if there:
                of = program.objects.get(there.address)
                kind = program.types.pointee_at(of, offset - there.address)
        return Value(POINTER, 0, False, kind) if kind else None


class FunctionFlow:
    """The states of one function."""

    def __init__(self, facts: RegisterFacts, function: CheckedFunction) -> None:
        self.facts = facts
        self.program = facts.program
        self.function = function
        self.code = range(function.first, function.end, 4)
        for pc in self.code:
            facts.operations[pc] = Operation(pc, self.program.elf.word(pc) or 0)
        self.operations = facts.operations
        codes = map(self.operations.__getitem__, self.code)
        self.leaders = {one.leads for one in codes if one.leads and not one.rd}
        self.into: dict[int, dict[int, State]] = {}     # {place: {where from: state}}
        self.visits: dict[int, int] = {}
        self.work: list[int] = []
        self.jump: Optional[State] = None       # what all computed jumps agree on
        self.left = STEPS_EACH * len(self.code)
        self.shared = self.shared_words()
        self.variables = self.program.pointers_in_registers(function.first)

    def run(self) -> None:
        self.begin(self.function.first, self.entry_state())
        # A switch: it may lead to whatever nothing else leads to
        if self.jump is not None:
            for pc in self.code:
                if not self.operations[pc].known:
                    self.begin(pc, dict(self.jump))
        if self.left < 0:
            self.facts.forget(self.function)
        else:
            self.find_slots()

    def entry_state(self) -> State:
        state: State = {register: Value(ENTRY, register) for register in CALLEE_SAVED}
        state[SP] = Value(FRAME, 0)
        if self.facts.pointer is not None:
            state[GP] = Value(ABSOLUTE, self.facts.pointer)
        for at, kind in enumerate(self.program.parameters(self.function.first)):
            if kind:
                state[A0 + at] = Value(POINTER, 0, False, kind)
        return state

    def shared_words(self) -> Optional[list[tuple[int, int]]]:
        """The parts of the frame that pointers may lead to: variables with a place. Without debug
        information all, as soon as the address of a place is taken; else none."""
        known = self.program.locals_of(self.function.first)
        if known is not None:
            return [(each.offset, each.end) for each in known]
        taken = any(one.kind == ALU and one.name in ("addi", "add") and SP in (one.rs1, one.rs2)
                    and one.rd != SP for one in map(self.operations.__getitem__, self.code))
        return None if taken else []

    def slot(self, base: Optional[Value], by: int) -> Optional[tuple[str, int]]:
        """The key of a word of the frame that only this function's own loads and stores reach."""
        if base and base.to == FRAME and not base.indexed and self.shared is not None:
            at = base.offset + by
            if at < 0 and at % 4 == 0 and not any(low <= at + 3 and at < high
                                                  for low, high in self.shared):
                return "s", at
        return None

    def begin(self, pc: int, state: State) -> None:
        self.into.setdefault(pc, {})[0] = state
        self.work.append(pc)
        while self.work and self.left >= 0:
            self.run_block(self.work.pop())

    def run_block(self, pc: int) -> None:
        """From a place on, to where the code leads elsewhere."""
        self.visits[pc] = self.visits.get(pc, 0) + 1
        first, *others = self.into[pc].values()
        state = dict(first)
        self.left -= len(others)
        for other in others:
            state = meet(state, other)
        while pc in self.code:
            one = self.operations[pc]
            self.left -= 1
            for register, kind in self.variables.get(pc, ()):
                state.setdefault(register, Value(POINTER, 0, False, kind))
            one.known = True
            one.base = state.get(one.rs1)
            one.other = state.get(one.rs2)
            one.stack = state.get(SP)
            self.take(one, state)
            if one.leads and not one.rd:
                self.lead(Edge(pc, one.leads), state)
            if one.kind == JUMP and not one.rd:
                if not one.leads and not one.ret:
                    self.jump = state if self.jump is None else meet(self.jump, state)
                return
            pc += 4
            if pc in self.leaders:
                self.lead(Edge(pc - 4, pc), state)
                return

    def lead(self, edge: Edge, state: State) -> None:
        if edge.to in self.code:
            edges = self.into.setdefault(edge.to, {})
            before = edges.get(edge.source)
            if before is not None and self.visits.get(edge.to, 0) > MOST_VISITS:
                state = meet(before, state)
            if before != state:
                edges[edge.source] = dict(state)
                self.work.append(edge.to)

    def take(self, one: Operation, state: State) -> None:
        """Changes a state as an instruction does."""
        if one.kind == JUMP:
            self.call(one, state)
        elif one.kind == STORE:
            key = self.slot(one.base, one.imm)
            if key is not None:
                put_value(state, key, one.other if one.width == 4 else None)
        elif one.rd:
            # (behind memory that a function asks for on its stack the frame's places aren't told by
            # sp)
            known = None
            if not one.takes_memory:
                known = self.facts.result(one) if one.kind == ALU else self.loaded(one, state)
            put_value(state, one.rd, known)

    def loaded(self, one: Operation, state: State) -> Optional[Value]:
        if one.kind != LOAD or one.width != 4 or one.base is None:
            return None
        key = self.slot(one.base, one.imm)
        if key is not None:
            return state.get(key)
        return (self.variable(one) if one.base.to == FRAME
                else self.facts.loaded(one.base, one.base.offset + one.imm))

    def variable(self, one: Operation) -> Optional[Value]:
        """What is loaded from a variable of the frame, if that is a pointer to a structure."""
        if one.base is None or one.base.indexed:
            return None
        at = one.base.offset + one.imm
        found = [each for each in self.program.locals_of(self.function.first) or ()
                 if each.offset == at and each.low <= one.pc < each.high]
        return (Value(POINTER, 0, False, found[0].pointee) if len(found) == 1 and found[0].pointee
                else None)

    def call(self, one: Operation, state: State) -> None:
        """What a call leaves. One that saves registers moves sp, and leaves what its caller had."""
        if not one.rd:
            return
        name = self.program.symbols[one.leads].name if one.leads in self.program.symbols else ""
        if one.rd == T0 and name.startswith(SAVE):
            count = int(name[len(SAVE):]) if name[len(SAVE):].isdigit() else 0
            size = 16 * (1 + (count >= 4) + (count >= 8) + (count >= 12))
            put_value(state, SP, moved_value(state.get(SP), -size))
            return
        for register in CALLER_SAVED:
            state.pop(register, None)
        kind = self.program.result(one.leads)
        if kind:
            state[A0] = Value(POINTER, 0, False, kind)

    def find_slots(self) -> None:
        """Which stores save a register that is loaded again from there."""
        saved: dict[int, list[Operation]] = {}
        restored: set[tuple[int, int]] = set()
        for one in map(self.operations.__getitem__, self.code):
            if (one.kind in (LOAD, STORE) and one.width == 4 and one.base and one.base.to == FRAME
                    and not one.base.indexed):
                if one.kind == STORE and one.other == Value(ENTRY, one.rs2):
                    saved.setdefault(one.base.offset + one.imm, []).append(one)
                elif one.kind == LOAD and one.rd in CALLEE_SAVED:
                    restored.add((one.base.offset + one.imm, one.rd))
        for at, stores in saved.items():
            if (at, stores[0].rs2) in restored or self.function.name.startswith(SAVE):
                self.facts.slots[self.function.first][at] = stores[0].rs2
                for one in stores:
                    one.saves = True


def put_value(state: State, key: Hashable, value: Optional[Value]) -> None:
    """Sets what is known of a register or a word; of nothing known there is no entry."""
    if value is None or value == UNKNOWN:
        state.pop(key, None)
    else:
        state[key] = value
