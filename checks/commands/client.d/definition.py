"""What `rvtest gdb` must answer, told in lists: all states of a run stand there, and a move looks through them one after another."""
from model import BASE, SIZE

REGISTERS, PC = 32, 32
COUNTS = {0x21: lambda state, place: place, 0x22: lambda state, place: len(state.printed), 0x23: lambda state, place: state.taken}
UNCHANGED = "E.the run is read-only: the debugger cannot change it"


def little(number):
    return number.to_bytes(4, "little").hex()


class Session:
    """A session over the states of a run, which ends with a reply; what is said of the job goes in front of that."""

    def __init__(self, states, end, text):
        self.states, self.end = states, end
        self.text = [f"O{text.encode().hex()}"]
        self.place = self.shown = 0
        self.breaks, self.watches, self.reads, self.accesses = [], [], [], []
        self.last = "T05"

    # ---- what a place meets

    def here(self):
        return self.states[self.place]

    def at_end(self, place):
        return place == len(self.states) - 1

    def is_break(self, place, bounds=None):
        pc = self.states[place].pc
        return pc in self.breaks or bounds is not None and not bounds[0] <= pc < bounds[1]

    def set_off(self, place):
        """The first watch that the step behind a place sets off, as it is told; nothing, where it sets off none."""
        if self.at_end(place) or place < 0:
            return None
        old, new = self.states[place], self.states[place + 1]
        for address, count in self.watches:
            span = slice(max(address - BASE, 0), max(address + count - BASE, 0))
            if old.memory[span] != new.memory[span]:
                return f"T05watch:{address:x};"
        for address, count in self.reads:
            if any(it in new.loaded for it in range(address, address + count)):
                return f"T05rwatch:{address:x};"
        for address, count in self.accesses:
            if any(it in new.loaded or it in new.stored for it in range(address, address + count)):
                return f"T05awatch:{address:x};"
        return None

    # ---- moves

    def forward(self, bounds=None):
        """The next place at which anything is met, and the stop there."""
        place = self.place
        while True:
            if place > self.place and self.is_break(place, bounds):
                return place, "T05"
            if self.at_end(place) or self.set_off(place):
                return place, self.set_off(place) or self.end
            place += 1

    def step(self):
        if self.at_end(self.place) or self.set_off(self.place):
            return self.place, self.set_off(self.place) or self.end
        return self.place + 1, "T05"

    def backward(self):
        for place in range(self.place, 0, -1):
            if place < self.place and self.is_break(place):
                return place, "T05"
            if self.set_off(place - 1):
                return place, self.set_off(place - 1)
        return 0, "T05" if self.place and self.is_break(0) else "T05replaylog:begin;"

    def step_back(self):
        if not self.place or self.set_off(self.place - 1):
            return self.place, self.set_off(self.place - 1) or "T05replaylog:begin;"
        return self.place - 1, "T05"

    def moved(self, stop, is_forward):
        """What a move says: what is printed up to there, once, what is said of the end, and the stop."""
        self.place, self.last = stop
        printed = b""
        if is_forward:
            printed, self.shown = self.here().printed[self.shown:], max(self.shown, len(self.here().printed))
        ended = self.text if is_forward and self.last == self.end and self.at_end(self.place) else []
        return [*([f"O{printed.hex()}"] if printed else []), *ended, self.last]

    # ---- requests

    def registers(self):
        return (*self.here().registers, self.here().pc)

    def register(self, number):
        if number in COUNTS:
            return little(COUNTS[number](self.here(), self.place))
        return little(self.registers()[number]) if number <= PC else "E01"

    def seek(self, number, value):
        for place, state in enumerate(self.states):
            if COUNTS[number](state, place) == value:
                self.place = place
                return "OK"
        return "E.the run does not reach that point"

    def write(self, number, value):
        if number in COUNTS:
            return self.seek(number, value)
        return "OK" if self.registers()[number] == value else UNCHANGED

    def memory(self, address, count):
        if not BASE <= address < BASE + SIZE or not count:
            return "E01"
        return self.here().memory[address - BASE:address - BASE + count].hex()

    def set_stop(self, put, stops, stop):
        if put and stop not in stops:
            stops.append(stop)
        if not put and stop in stops:
            stops.remove(stop)
        return "OK"
