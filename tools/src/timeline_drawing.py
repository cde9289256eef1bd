"""Draws a history as plain SVG: a column for each place, a lane for each session and one for each cell that calls name.

Columns are as wide as their labels, so that no two labels meet; long histories go on in further rows."""

from xml.sax.saxutils import escape

LEFT, WIDTH, MARGIN = 104, 1560, 24
LANE, CELL_LANE, AXIS = 78, 26, 30
FONT, CHARACTER = 12, 7.3
COLUMN = 46
MOST_CELLS = 12

INK, MUTED, FAINT = "#1c2733", "#5c6b7a", "#dfe5ea"
RUNNING, SPAN, TAIL, LOST = "#d3dce4", "#2f6db5", "#a9c7e8", "#efc4c1"
GOOD, WAIT, BAD = "#1d8a4e", "#b87400", "#c8302b"

LEGEND = [
    ("read", "read: value found"),
    ("hold", "hold: read, and counts as written"),
    ("write", "write"),
    ("dropped", "write dropped: value as found"),
    ("seal", "seal: snapshot"),
    ("lock", "lock taken"),
    ("wait", "waits for readers"),
    ("commit", "commit"),
    ("store", "value stored"),
    ("free", "lock freed"),
    ("rollback", "rolled back"),
    ("abandon", "abandoned"),
    ("refused", "refused, nothing changed"),
]

STRETCHES = [
    (RUNNING, 8, "running"),
    (SPAN, 18, "from snapshot to commit"),
    (WAIT, 6, "waiting"),
    (TAIL, 8, "storing and freeing"),
    (LOST, 18, "undone"),
]


class Canvas:
    """The elements drawn so far."""

    def __init__(self):
        self.elements = []

    def add(self, element):
        self.elements.append(element)

    def text(self, x, y, words, colour=INK, anchor="middle", weight="normal", size=FONT):
        self.add(f'<text x="{x:.1f}" y="{y:.1f}" fill="{colour}" text-anchor="{anchor}" font-weight="{weight}" '
                 f'font-size="{size}" stroke="white" stroke-width="3" paint-order="stroke">{escape(words)}</text>')

    def line(self, x1, y1, x2, y2, colour, width=1.0, dash=""):
        dashed = f' stroke-dasharray="{dash}"' if dash else ""
        self.add(f'<line x1="{x1:.1f}" y1="{y1:.1f}" x2="{x2:.1f}" y2="{y2:.1f}" stroke="{colour}" stroke-width="{width}"{dashed}/>')

    def box(self, x, y, width, height, colour, radius=0.0):
        self.add(f'<rect x="{x:.1f}" y="{y:.1f}" width="{width:.1f}" height="{height:.1f}" rx="{radius}" fill="{colour}"/>')

    def mark(self, kind, x, y):
        """The mark of one kind of call, centred."""
        x, y = round(x, 1), round(y, 1)
        if kind == "begin":
            self.add(f'<path d="M{x} {y - 8}V{y + 8}" stroke="{MUTED}" stroke-width="3"/>')
        elif kind == "read":
            self.add(f'<circle cx="{x}" cy="{y}" r="6" fill="white" stroke="{INK}" stroke-width="2"/>')
        elif kind == "hold":
            self.add(f'<circle cx="{x}" cy="{y}" r="6" fill="white" stroke="{INK}" stroke-width="2"/>'
                     f'<rect x="{x - 3}" y="{y - 3}" width="6" height="6" fill="{INK}"/>')
        elif kind == "write":
            self.add(f'<rect x="{x - 6}" y="{y - 6}" width="12" height="12" fill="{INK}"/>')
        elif kind == "dropped":
            self.add(f'<rect x="{x - 6}" y="{y - 6}" width="12" height="12" fill="white" stroke="{MUTED}" stroke-width="1.5" stroke-dasharray="3 2"/>')
        elif kind == "seal":
            self.add(f'<path d="M{x} {y - 9}L{x + 9} {y}L{x} {y + 9}L{x - 9} {y}Z" fill="white" stroke="{SPAN}" stroke-width="3"/>')
        elif kind == "lock":
            self.add(f'<path d="M{x} {y - 8}L{x + 8} {y + 6}H{x - 8}Z" fill="white" stroke="{SPAN}" stroke-width="2"/>')
        elif kind == "wait":
            self.add(f'<path d="M{x - 7} {y - 9}H{x + 7}L{x - 7} {y + 9}H{x + 7}Z" fill="{WAIT}" stroke="white" stroke-width="1.5"/>')
        elif kind == "commit":
            self.add(f'<circle cx="{x}" cy="{y}" r="10" fill="{GOOD}" stroke="white" stroke-width="1.5"/>'
                     f'<path d="M{x - 5} {y}L{x - 1} {y + 4}L{x + 5} {y - 4}" fill="none" stroke="white" stroke-width="2.5"/>')
        elif kind == "store":
            self.add(f'<path d="M{x} {y + 8}L{x + 8} {y - 6}H{x - 8}Z" fill="{GOOD}" stroke="white" stroke-width="1.5"/>')
        elif kind == "free":
            self.add(f'<path d="M{x - 6} {y}H{x + 6}" stroke="{INK}" stroke-width="3"/>')
        elif kind in ("rollback", "abandon"):
            colour = BAD if kind == "rollback" else MUTED
            self.add(f'<circle cx="{x}" cy="{y}" r="10" fill="{colour}" stroke="white" stroke-width="1.5"/>'
                     f'<path d="M{x - 4} {y - 4}L{x + 4} {y + 4}M{x + 4} {y - 4}L{x - 4} {y + 4}" stroke="white" stroke-width="2.5"/>')
        else:
            self.add(f'<circle cx="{x}" cy="{y}" r="7" fill="white" stroke="{MUTED}" stroke-width="1.5" stroke-dasharray="3 2"/>'
                     f'<path d="M{x} {y - 4}V{y + 1}M{x} {y + 3}V{y + 4.5}" stroke="{MUTED}" stroke-width="2"/>')


class Row:
    """Some of the calls, side by side, with the centre and the width of each column."""

    def __init__(self):
        self.calls, self.centres, self.right = [], {}, LEFT

    def fits(self, width):
        return not self.calls or self.right + width <= WIDTH - MARGIN

    def append(self, call, width):
        self.calls.append(call)
        self.centres[call.place] = self.right + width / 2
        self.right += width


def split_rows(calls):
    rows = [Row()]
    for call in calls:
        width = max(COLUMN, max(len(line) for line in call.lines) * CHARACTER + 12)
        if not rows[-1].fits(width):
            rows.append(Row())
        rows[-1].append(call, width)
    return rows


def shown_cells(history):
    """The cells that calls name: the stored ones first, at most twelve, in order; and how many were left out."""
    stored = {call.stored[0] for call in history.calls if call.stored}
    named = {call.cell for call in history.calls if call.name in ("read", "hold", "write") and call.cell < len(history.cells)}
    chosen = (sorted(stored) + sorted(named - stored))[:MOST_CELLS]
    return sorted(chosen), len(named | stored) - len(chosen)


def draw(history):
    canvas = Canvas()
    if not history.calls:
        note = history.note or "There are no calls."
        canvas.text(MARGIN, 40, note, anchor="start", size=15)
        return document(canvas, len(note) * 10 + 2 * MARGIN, 64)
    cells, left_out = shown_cells(history)
    values = dict(enumerate(history.cells))
    canvas.text(MARGIN, 34, history.summary(), anchor="start", weight="bold", size=16)
    y = 54
    rows = split_rows(history.calls)
    for row in rows:
        y = draw_row(canvas, history, row, cells, values, y) + 22
    notes = [history.note] if history.note else []
    if left_out:
        notes.append(f"{left_out} more cells are named by calls and not shown.")
    for note in notes:
        canvas.text(MARGIN, y + 4, note, anchor="start", colour=BAD if note == history.note else MUTED, weight="bold")
        y += 22
    width = max(max(row.right for row in rows) + MARGIN, 900)
    return document(canvas, width, draw_legend(canvas, width, y))


def lanes(history, row):
    """The sessions with a call or an open transaction in a row."""
    first, last = row.calls[0].place, row.calls[-1].place
    sessions = {call.session for call in row.calls}
    for transaction in history.transactions:
        if transaction.begin <= last and (transaction.end is None or transaction.end >= first):
            sessions.add(transaction.session)
    return sorted(sessions)


def draw_row(canvas, history, row, cells, values, top):
    sessions = lanes(history, row)
    lane_of = {session: top + AXIS + index * LANE for index, session in enumerate(sessions)}
    floor = top + AXIS + len(sessions) * LANE
    bottom = floor + 10 + len(cells) * CELL_LANE
    canvas.text(MARGIN, top + 18, "place", colour=MUTED, anchor="start")
    for call in row.calls:
        x = row.centres[call.place]
        canvas.line(x, top + AXIS - 6, x, bottom, FAINT)
        canvas.text(x, top + 18, str(call.place), colour=MUTED, weight="bold")
    for session in sessions:
        canvas.line(MARGIN, lane_of[session], row.right, lane_of[session], FAINT)
        canvas.text(MARGIN, lane_of[session] + 27, f"session {session}", anchor="start", weight="bold")
    canvas.line(MARGIN, floor, row.right, floor, FAINT)
    for transaction in history.transactions:
        if transaction.session in lane_of:
            draw_transaction(canvas, row, transaction, lane_of[transaction.session] + 23)
    for call in row.calls:
        draw_call(canvas, row, call, lane_of[call.session] + 23)
    for index, cell in enumerate(cells):
        draw_cell(canvas, row, cell, values, floor + 10 + index * CELL_LANE)
    return bottom


def draw_transaction(canvas, row, transaction, y):
    """Thin while it runs, thick from snapshot to commit, pale until its locks are free; waits lie on top."""
    lost = transaction.outcome in ("rolled back", "abandoned")
    stretches = [
        (transaction.begin, transaction.snapshot or transaction.end, LOST if lost and not transaction.snapshot else RUNNING, 8),
        (transaction.snapshot, transaction.commit or transaction.end, LOST if lost else SPAN, 18),
        (transaction.commit, transaction.end, TAIL, 8),
    ]
    for start, end in transaction.waits:
        stretches.append((start, end, WAIT, 6))
    for start, end, colour, height in stretches:
        if start is not None and start != end:
            draw_stretch(canvas, row, (start, end), y - height / 2, height, colour)


def draw_stretch(canvas, row, places, top, height, colour):
    """The part of a stretch between two places that lies in a row; without a second place it goes on to the end."""
    start, end = places
    first, last = row.calls[0].place, row.calls[-1].place
    if start > last or (end is not None and end < first):
        return
    left = row.centres.get(start, LEFT)
    right = row.right if end is None or end > last else row.centres[end]
    canvas.box(left, top, right - left, height, colour)


def draw_call(canvas, row, call, y):
    x = row.centres[call.place]
    canvas.add(f"<g><title>{escape(f'{call.place}: {call.name}, session {call.session}, answer {call.number}')}</title>")
    canvas.mark(call.kind, x, y)
    colour = {"rollback": BAD, "wait": WAIT, "refused": MUTED, "abandon": MUTED, "dropped": MUTED}.get(call.kind, INK)
    for index, line in enumerate(call.lines):
        strong = line == "commit" or call.kind == "rollback" and index == 0
        canvas.text(x, y + 24 + 13 * index, line, colour=GOOD if line == "commit" else colour, weight="bold" if strong else "normal")
    canvas.add("</g>")


def draw_cell(canvas, row, cell, values, y):
    """A strip with the cell's value in the store; it changes where a value is stored."""
    canvas.text(MARGIN, y + 15, f"cell {cell}", anchor="start", colour=MUTED)
    changes = [(row.centres[call.place], call.stored[1]) for call in row.calls if call.stored and call.stored[0] == cell]
    start, value = LEFT, values[cell]
    for x, after in changes + [(row.right, None)]:
        changed = start > LEFT
        canvas.box(start, y + 2, max(x - start - 1, 1), CELL_LANE - 7, "#e3f0e8" if changed else "#eef2f5", 2.0)
        fits = len(str(value)) * CHARACTER + 12 < x - start
        if fits:
            canvas.text(start + 6, y + 16, str(value), anchor="start", weight="bold" if changed else "normal")
        elif after is None:
            canvas.text(row.right - 4, y + 16, str(value), anchor="end", weight="bold")
        if after is not None:
            start, value = x, after
    values[cell] = value


def draw_legend(canvas, width, y):
    canvas.line(MARGIN, y, width - MARGIN, y, FAINT)
    x, y = MARGIN + 10, y + 24
    for kind, words in LEGEND:
        step = len(words) * CHARACTER + 44
        if x + step > width:
            x, y = MARGIN + 10, y + 26
        canvas.mark(kind, x, y)
        canvas.text(x + 16, y + 4, words, anchor="start", colour=MUTED)
        x += step
    y += 26
    x = MARGIN
    for colour, height, words in STRETCHES:
        canvas.box(x, y - height / 2, 26, height, colour)
        canvas.text(x + 34, y + 4, words, anchor="start", colour=MUTED)
        x += len(words) * CHARACTER + 60
    return y + 24


def document(canvas, width, height):
    head = (f'<svg xmlns="http://www.w3.org/2000/svg" width="{width:.0f}" height="{height:.0f}" viewBox="0 0 {width:.0f} {height:.0f}" '
            f'font-family="DejaVu Sans, Verdana, sans-serif">')
    return "\n".join([head, f'<rect width="{width:.0f}" height="{height:.0f}" fill="white"/>'] + canvas.elements + ["</svg>", ""])
