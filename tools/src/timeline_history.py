"""A replay's input and output as a history: for each call what it did, and for each transaction its snapshot and its commit.

All of it is read off the starting figures, the calls and their answers, as document 01's 'What demand 3 counts' does; so is the value that a
transaction found in a cell, which no answer need show (document 02, Paper 2): it is the store's when the cell is entered. A cell that it held counts as
written, changed or not (Paper 4). A wait's number is that of the sessions in its way (Paper 6)."""

HEAD = 3
BODY = {1: 1, 2: 3, 3: 7, 4: 1, 5: 1, 6: 1, 8: 5, 9: 3}
CALLS = {1: "begin", 2: "read", 3: "write", 4: "seal", 5: "advance", 6: "abandon", 9: "hold"}
REFUSALS = {1: "no such session", 2: "wrong phase", 3: "no such cell", 4: "above its cap", 5: "log full"}
PHASES = ("lock", "store", "free")


class Mismatch(Exception):
    """The output is not one that a replay of the input prints."""


class Call:
    """One call and its answer: the number, and what stands after it. `kind` and `lines` say what it did, for the picture; `place` is its ordinal."""

    def __init__(self, place, name, session, cell, value, number, got):
        self.place, self.name, self.session, self.cell, self.value = place, name, session, cell, value
        self.number, self.got = number, got
        self.kind, self.lines = "refused", []
        # The cell and the value that this call put in the store, if it did.
        self.stored = None


class Transaction:
    """A begin answered 100 and the session's later calls up to its end; places are None while they are not in the list."""

    def __init__(self, session, place):
        self.session, self.begin = session, place
        # The value found in each cell entered, the value last written to each cell, the calls that wrote, and the cells held.
        self.found, self.wrote, self.writes, self.held = {}, {}, [], set()
        # The cells that it held or changed, in order: known at its seal.
        self.publishes = []
        self.snapshot = self.commit = self.end = None
        self.outcome = "open"
        self.moved = 0
        # For each wait its place and that of the session's next call.
        self.waits = []

    def current(self, cell):
        return self.wrote.get(cell, self.found[cell])


class History:
    """The cells, calls and transactions of one replay, the value of each cell after each place, and a closing note."""

    def __init__(self, data, text):
        self.cells, self.calls, self.transactions, self.note = [], [], [], None
        lines = text.split("\n")
        if lines[0].split(" ")[0] in ("size", "setup"):
            self.note = refused_start(lines[0])
            return
        fields, self.cells = read_fields(data)
        self.values = list(self.cells)
        self.readers = {}
        self.claimant = {}
        self.running = {}
        self.replay(fields, lines)

    def replay(self, fields, lines):
        """Follows the calls beside their lines, then checks the cells' lines."""
        at = 0
        for place, (name, session, cell, value) in enumerate(fields, 1):
            words = lines[at].split(" ")
            if words[0] != str(place):
                break
            number, *got = map(int, words[1:])
            if len(got) != (number in (101, 104)):
                raise Mismatch(f"call {place} is answered {number} with {several(len(got), 'number')} after it")
            self.step(Call(place, name, session, cell, value, number, got[0] if got else None))
            at += 1
        if lines[at].startswith("field "):
            _, byte, number = lines[at].split(" ")
            self.note = f"The calls end at byte {byte}: field refused, {number}."
            at += 1
        elif len(self.calls) != len(fields):
            raise Mismatch(f"line {at + 1} is not the answer of call {len(self.calls) + 1}")
        expected = [f"c {cell} {value}" for cell, value in enumerate(self.values)]
        if lines[at:] != expected + [""]:
            raise Mismatch(f"from line {at + 1} on, the cells are not those that the calls leave")

    def step(self, call):
        self.calls.append(call)
        transaction = self.running.get(call.session)
        if transaction and transaction.waits and transaction.waits[-1][1] is None:
            transaction.waits[-1] = (transaction.waits[-1][0], call.place)
        if call.number == 6:
            self.roll_back(call)
        elif call.number in REFUSALS:
            call.lines = [f"{call.name}: {call.number}", REFUSALS[call.number]]
        elif call.name == "begin":
            self.running[call.session] = Transaction(call.session, call.place)
            self.transactions.append(self.running[call.session])
            call.kind, call.lines = "begin", ["begin"]
        elif call.session not in self.running:
            raise Mismatch(f"call {call.place} is answered {call.number} outside a transaction")
        else:
            getattr(self, "do_" + call.name)(call, self.running[call.session])

    def do_read(self, call, transaction):
        self.enter(call, transaction)
        current = transaction.current(call.cell)
        if call.got != current:
            raise Mismatch(f"call {call.place} reads {call.got} where the cell has {current}")
        call.kind, call.lines = "read", [f"c{call.cell} = {call.got}"]

    def do_hold(self, call, transaction):
        self.do_read(call, transaction)
        transaction.held.add(call.cell)
        call.kind, call.lines = "hold", call.lines + ["held"]

    def do_write(self, call, transaction):
        self.enter(call, transaction)
        transaction.wrote[call.cell] = call.value
        transaction.writes.append(call)
        call.kind, call.lines = "write", [f"c{call.cell} \u2190 {call.value}"]

    def do_seal(self, call, transaction):
        transaction.snapshot = call.place
        changed = {cell for cell, value in transaction.wrote.items() if value != transaction.found[cell]}
        transaction.publishes = sorted(changed | transaction.held)
        if call.number != (102 if transaction.publishes else 105):
            raise Mismatch(f"call {call.place} is answered {call.number} with {several(len(transaction.publishes), 'cell')} to publish")
        for cell in transaction.found.keys() - set(transaction.publishes):
            self.readers[cell].discard(call.session)
        for write in transaction.writes:
            if write.cell not in transaction.publishes:
                write.kind, write.lines = "dropped", write.lines + ["dropped"]
        if call.number == 105:
            transaction.commit = call.place
            self.close(call, "committed")
            call.kind, call.lines = "commit", ["seal", "snapshot,", "commit"]
        else:
            call.kind, call.lines = "seal", ["seal", "snapshot"]

    def do_advance(self, call, transaction):
        cells = transaction.publishes
        if not cells:
            raise Mismatch(f"call {call.place} is answered {call.number} before a seal answered 102")
        phase, index = divmod(transaction.moved, len(cells))
        cell = cells[index]
        if phase == 0:
            self.claimant[cell] = call.session
        if call.number == 104:
            self.wait(call, cell, phase)
            transaction.waits.append((call.place, None))
            return
        transaction.moved += 1
        if (call.number == 105) != (transaction.moved == 3 * len(cells)):
            raise Mismatch(f"call {call.place} is answered {call.number}, advance {transaction.moved} of {several(len(cells), 'cell')} to publish")
        call.kind, call.lines = PHASES[phase], [f"{PHASES[phase]} c{cell}"]
        if phase == 0 and transaction.moved == len(cells):
            transaction.commit = call.place
            call.kind, call.lines = "commit", [f"lock c{cell}", "commit"]
        if phase == 1:
            call.stored = (cell, transaction.current(cell))
            self.values[cell] = transaction.current(cell)
            call.lines.append(f"= {transaction.current(cell)}")
        if phase == 2:
            self.readers[cell].discard(call.session)
            self.claimant.pop(cell, None)
        if call.number == 105:
            self.close(call, "committed")
            call.lines.append("done")

    def wait(self, call, cell, phase):
        """How many are in the way, and which sessions, where they are few."""
        others = sorted(self.readers[cell] - {call.session})
        if phase > 0:
            raise Mismatch(f"call {call.place} is answered 104 with no cell left to lock")
        if not others or call.got != len(others):
            raise Mismatch(f"call {call.place} waits for {call.got} with {several(len(others), 'other')} in the way")
        call.kind, call.lines = "wait", [f"wait c{cell}", f"for {several(len(others), 'other')}"]
        if len(others) < 5:
            call.lines.append(("session " if len(others) == 1 else "") + ", ".join(map(str, others)))

    def do_abandon(self, call, _):
        self.release(call.session)
        self.close(call, "abandoned")
        call.kind, call.lines = "abandon", ["abandon"]

    def enter(self, call, transaction):
        transaction.found.setdefault(call.cell, self.values[call.cell])
        self.readers.setdefault(call.cell, set()).add(call.session)

    def roll_back(self, call):
        transaction = self.running[call.session]
        cell = call.cell
        if call.name == "advance":
            if transaction.moved >= len(transaction.publishes):
                raise Mismatch(f"call {call.place} is answered 6 with no cell left to lock")
            cell = transaction.publishes[transaction.moved]
        call.kind, call.lines = "rollback", ["rolled back", f"c{cell} is claimed", f"by {self.claimant.get(cell, '?')}"]
        self.release(call.session)
        self.close(call, "rolled back")

    def release(self, session):
        """The session leaves all readers and gives up its claims."""
        for readers in self.readers.values():
            readers.discard(session)
        self.claimant = {cell: owner for cell, owner in self.claimant.items() if owner != session}

    def close(self, call, outcome):
        transaction = self.running.pop(call.session)
        transaction.end, transaction.outcome = call.place, outcome

    def summary(self):
        outcomes = [transaction.outcome for transaction in self.transactions]
        waits, dropped = (sum(call.kind == kind for call in self.calls) for kind in ("wait", "dropped"))
        parts = [several(len(self.cells), "cell"), several(len(self.calls), "call"), several(len(outcomes), "transaction")]
        for outcome in ("committed", "rolled back", "abandoned", "open"):
            if outcome in outcomes:
                parts.append(f"{outcomes.count(outcome)} {outcome}")
        if waits:
            parts.append(several(waits, "wait"))
        if dropped:
            parts.append(f"{several(dropped, 'write')} dropped")
        return ", ".join(parts)


def several(count, thing):
    return f"{count} {thing}" if count == 1 else f"{count} {thing}s"


def refused_start(line):
    if line == "size":
        return "The input is longer than 65,536 bytes."
    number = line.split(" ")[1]
    reasons = {"7": "the number of cells is not from 1 to 1,024", "8": "a cell has an unknown class or a figure above its cap"}
    return f"Set-up refused with {number}: {reasons.get(number, 'unknown reason')}."


def read_fields(data):
    """The calls up to the first field that is none, and the starting values."""
    calls, cells, place = [], [], 0
    while len(data) - place >= HEAD:
        tag = data[place]
        length = int.from_bytes(data[place + 1:place + HEAD], "little")
        body = data[place + HEAD:place + HEAD + length]
        if BODY.get(tag) != length or len(body) < length or (tag == 8 and calls):
            break
        if tag == 8:
            cells.append(int.from_bytes(body[1:5], "little"))
        else:
            calls.append((CALLS[tag], body[0], int.from_bytes(body[1:3], "little"), int.from_bytes(body[3:7], "little")))
        place += HEAD + length
    return calls, cells
