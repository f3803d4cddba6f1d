"""Follows a schedule and its answers, and says of each answer whether it is right.

What the order means is computed from the steps alone, as docs/RULES.md has it: who sent what, the
number of each event, its verdict, and the committed rows of each node. An answer is held against
that. Whether a statement is refused by `BUSY`, `HELD` or `TOO LARGE` is not looked at.
"""
import itertools
import re

from answers_order import (
    CERTIFIED, COMMIT_SENT, ENDED, EXCLUSIVE, FRAGMENT_SENT, HAS_LOCKS, KILLED_SENT, PASS,
    REPLAYING, RUNNING, SHARED, UPDATE, Event, Fold, Transaction, Wrong, deleted, demand, inserted,
    kinds_at, meet, touch, updated,
)  # fmt: skip


class Node:
    """What a node has done, the messages that it has not ordered, its sessions and its rows."""

    def __init__(self, number):
        self.number, self.taken, self.certified, self.committed = number, 0, 0, 0
        # Its member, the number of the view in which that entered, and that of its last snapshot.
        self.member, self.view, self.since = number, 1, 0
        self.serial = self.begin = 1
        self.outbox, self.units, self.rows = [], {}, {}
        self.live, self.waiting = {}, {}
        self.left, self.joining, self.has_id = False, False, True

    def is_connected(self):
        return not self.left and not self.joining

    def is_synced(self):
        return self.is_connected() and self.committed >= self.view

    def seen(self, session, at):
        """The row that a session sees: its own open changes done on the committed row."""
        trx, committed = self.live.get(session), self.rows.get(at)
        return trx.seen(at, committed) if trx and trx.status in HAS_LOCKS else committed

    def show(self, commit):
        """The changes of a commit are done on the committed rows."""
        for at, change in commit.commits[1]:
            row = change(self.rows.get(at))
            if row is None:
                self.rows.pop(at, None)
            else:
                self.rows[at] = row

    def lines(self):
        rows = sorted(self.rows.items())
        shown = [f"row {table} {row} {' '.join(map(str, it))}" for (table, row), it in rows]
        return [f"node {self.number} at {self.committed}", *shown]

    def send(self, trx, form):
        event = Event("WRITE", self.member, trx, form, self.committed, self.serial)
        if form != "ROLLBACK":
            event.keys, event.changes = trx.new_keys, trx.new_changes
            event.fragment = trx.fragments
            trx.new_keys, trx.new_changes = {}, []
        trx.fragments += form == "FRAGMENT"
        self.serial += 1
        self.outbox.append(event)

    def end(self, trx, waiting=None):
        trx.status = ENDED
        del self.live[trx.session]
        if waiting:
            self.waiting[trx.session] = (trx, waiting)

    def judge_own(self, event):
        """Its own write set is certified: its transaction is told."""
        trx = event.trx
        if trx.status not in (FRAGMENT_SENT, COMMIT_SENT, KILLED_SENT) or event.form == "ROLLBACK":
            return
        if event.verdict == PASS:
            after = {FRAGMENT_SENT: RUNNING, COMMIT_SENT: CERTIFIED, KILLED_SENT: REPLAYING}
            trx.status = after[trx.status]
        elif event.verdict[1].startswith(("CONFLICT", "HELD")):
            self.end(trx, "DEADLOCK CERT")

    def leave(self):
        """Its sessions are told what became of their transactions; what it did not take is lost."""
        for _, trx in sorted(self.live.items()):
            if trx.status in (RUNNING, FRAGMENT_SENT):
                self.end(trx, "DISCONNECTED")
            elif trx.status in (COMMIT_SENT, KILLED_SENT) and not self.has_taken_commit(trx):
                self.end(trx, "UNKNOWN")
        self.outbox, self.left, self.joining = [], True, False

    def join(self, fresh, member, view):
        """It is a new member, whose write sets and transactions are counted anew."""
        self.member, self.view, self.serial, self.begin = member, view, 1, 1
        self.left, self.joining, self.has_id = False, True, self.has_id and not fresh

    def install(self, donor):
        """It takes the state of a node that has committed all that it certified."""
        self.taken = self.certified = self.committed = self.since = donor.committed
        self.rows, self.joining, self.has_id = dict(donor.rows), False, True

    def has_taken_commit(self, trx):
        return any(it.form == "COMMIT" and it.number <= self.taken for it in trx.events)

    def kill(self, keys):
        """The sessions whose locks touch these keys, ascending; each is aborted."""
        found = []
        for session, trx in sorted(self.live.items()):
            if trx.status in HAS_LOCKS and meet(trx.keys, keys, touch):
                found.append(session)
                self.abort(trx)
        return found

    def abort(self, trx):
        if trx.status in (COMMIT_SENT, CERTIFIED):
            trx.status = KILLED_SENT if trx.status == COMMIT_SENT else REPLAYING
            return
        self.end(trx, "DEADLOCK BF")
        if trx.fragments:
            self.send(trx, "ROLLBACK")


class Run:
    """A schedule as it is followed: each step with its answer, which is Wrong or is done."""

    def __init__(self, nodes, gcache=65536):
        self.gcache = gcache
        self.fold = Fold(range(1, nodes + 1))
        self.nodes = {number: Node(number) for number in range(1, nodes + 1)}
        self.trxs = []

    def step(self, words, answer, at=None):
        """Follows a step, given by its words; `at` is the line of its answer in the text."""
        number, _, session = words[0].partition(".")
        node = self.nodes[int(number)]
        if session:
            self.client(node, int(session), words[1:], answer, at)
        else:
            values = [int(word) if word.isdecimal() else word for word in words[2:]]
            getattr(self, words[1])(node, answer, *values)

    def end(self):
        """What was told stands, whatever came later."""
        for trx in self.trxs:
            if trx.told == "COMMITTED 0":
                holds, reason = not trx.events, "its transaction sent a write set"
            elif trx.told and trx.told.startswith("COMMITTED"):
                holds = trx.commits() == [int(trx.told.split()[1])]
                reason = "another commit of its transaction passed"
            else:
                says_nothing = trx.told in (None, "UNKNOWN")
                holds, reason = says_nothing or not trx.commits(), "its transaction commits later"
            if not holds:
                raise Wrong(reason, trx.told_at)

    def rest(self, lines, at):
        """The lines behind the steps: each node's place and its committed rows."""
        due = [line for node in self.nodes.values() for line in node.lines()]
        for line, ours in itertools.zip_longest(lines[at:], due, fillvalue="nothing"):
            at += 1
            if line != ours:
                raise Wrong(f"{line} is printed, and not {ours}", at)

    # Client calls.

    def client(self, node, session, call, answer, at):
        trx = node.live.get(session)
        if session in node.waiting:
            self.tell(node, *node.waiting.pop(session), answer, at)
        elif trx and trx.status != RUNNING:
            self.is_told(answer, "PENDING")
        elif node.left:
            self.is_told(answer, "DISCONNECTED")
        elif not node.is_synced():
            self.is_told(answer, "NOT SYNCED")
        elif call[0] == "begin":
            self.is_told(answer, "IN TRX" if trx else "OK")
            if not trx:
                unit = int(call[2]) if len(call) > 1 else 0
                node.live[session] = Transaction(node, session, node.begin, unit)
                node.begin += 1
                self.trxs.append(node.live[session])
        elif call[0] == "read":
            self.is_told(answer, row_text(node.seen(session, (call[1], call[2]))))
        elif call[0] == "poll":
            self.is_told(answer, "RUNNING" if trx else "NO TRX")
        elif not trx:
            self.is_told(answer, "NO TRX")
        elif call[0] in ("commit", "rollback"):
            self.finish_trx(node, trx, call[0], answer, at)
        else:
            self.statement(node, trx, call, answer)

    def is_told(self, answer, due):
        demand(answer == due, f"{answer} is told, and not {due}")

    def tell(self, node, trx, waiting, answer, at):
        """A waiting answer is told, once, to the session of its transaction."""
        trx.told, trx.told_at = answer, at
        if waiting in ("UNKNOWN", "DISCONNECTED"):
            self.is_told(answer, waiting)
            return
        kind, _, number = answer.rpartition(" ")
        if not re.fullmatch("0|[1-9][0-9]{0,19}", number):
            kind = None
        if kind == "COMMITTED":
            self.committed(node, trx, int(number))
        elif kind in ("DEADLOCK CERT", "DEADLOCK BF"):
            self.deadlock(node, trx, int(number))
        demand(kind == waiting, f"{answer} is told while {waiting} waits")

    def committed(self, node, trx, n):
        event = self.event(n)
        ours = event and event.trx is trx and event.is_commit()
        demand(ours, f"event {n} is no commit of its transaction that passed")
        demand(n <= node.committed, f"the node has not committed {n}")

    def deadlock(self, node, trx, n):
        event, failure = self.event(n), trx.failure()
        passed = event and event.form in ("FRAGMENT", "COMMIT") and event.verdict == PASS
        demand(passed, f"event {n} is no write set that passed")
        demand(event.trx is not trx, f"event {n} is of its own transaction")
        behind = failure and failure.number <= n
        demand(not behind, f"event {n} stands behind the failure of its transaction")
        demand(n <= node.certified, f"the node has not certified {n}")
        met = meet(event.touching_keys(), trx.keys, touch)
        demand(met, f"event {n} does not touch its transaction")
        demand(not trx.commits(), "its transaction commits")

    def event(self, n):
        return self.fold.order[n - 1] if 0 < n <= len(self.fold.order) else None

    def finish_trx(self, node, trx, call, answer, at):
        empty = not trx.fragments and not trx.new_changes
        if call == "commit" and not empty:
            self.is_told(answer, "PENDING")
            trx.status = COMMIT_SENT
            node.send(trx, "COMMIT")
            return
        self.is_told(answer, "COMMITTED 0" if call == "commit" else "ROLLED BACK")
        trx.told, trx.told_at = answer, at
        node.end(trx)
        if call == "rollback" and trx.fragments:
            node.send(trx, "ROLLBACK")

    def statement(self, node, trx, call, answer):
        verb, at = call[0], (call[1], call[2])
        if re.fullmatch("TOO LARGE|(BUSY|BUSY APPLY|HELD) [0-9]+", answer):
            return
        row = node.seen(trx.session, at)
        if verb == "insert":
            due = "DUPLICATE" if row else None
            trial = (EXCLUSIVE, inserted(tuple(map(int, call[3:]))))
        elif verb == "update":
            pairs = dict(map(int, pair.split("=")) for pair in call[3:])
            lacks = [column for column in pairs if row and column > len(row)]
            due = f"NO COLUMN {min(lacks)}" if lacks else None if row else "NO ROW"
            trial = (UPDATE, updated(pairs))
        else:
            due = None if row else "NO ROW"
            trial = (EXCLUSIVE, deleted) if verb == "delete" else (SHARED, None)
        if due:
            self.is_told(answer, due)
            return
        trx.add(at, *trial)
        if verb == "share":
            self.is_told(answer, row_text(row))
        elif trx.is_due():
            self.is_told(answer, "PENDING")
            trx.status = FRAGMENT_SENT
            node.send(trx, "FRAGMENT")
        else:
            self.is_told(answer, "OK")

    # Steps of nodes. A drain does steps without an answer.

    def is_answered(self, answer, due):
        demand(answer == due, f"{answer} is answered, and not {due}")

    def order(self, node, answer=None):
        due = f"ORDERED {len(self.fold.order) + 1}" if node.outbox else "NOTHING"
        self.is_answered(due if answer is None else answer, due)
        if node.outbox:
            self.fold.put(node.outbox.pop(0))

    def take(self, node, answer):
        more = node.is_connected() and node.taken < len(self.fold.order)
        due = f"TOOK {node.taken + 1}" if more else "NOTHING"
        self.is_answered(answer, due)
        node.taken += more

    def certify(self, node, answer=None):
        more = node.certified < node.taken
        event = self.event(node.certified + 1) if more else None
        due = event.text() if event else "NOTHING"
        self.is_answered(due if answer is None else answer, due)
        node.certified += more
        if event and event.kind == "WRITE" and event.member == node.member:
            node.judge_own(event)

    def is_local(self, node, n):
        trx = self.event(n).trx
        return trx.node is node and trx.status == CERTIFIED

    def start(self, node, answer, n):
        event = self.event(n)
        waits = event and event.is_commit() and node.committed < n <= node.certified
        if not waits or n in node.units:
            due = f"NO UNIT {n}"
        elif self.is_local(node, n):
            due = f"LOCAL {n}"
        elif before := self.touching_before(node, event):
            due = f"NOT YET {before[-1]}"
        else:
            killed = " ".join(map(str, self.begin_unit(node, n)))
            due = f"STARTED {n} KILLED {killed}" if killed else f"STARTED {n}"
        self.is_answered(answer, due)

    def touching_before(self, node, event):
        """The numbers of the earlier commits that touch it and wait for their own commit."""
        waiting = (it for it in self.fold.commits if node.committed < it.number < event.number)
        keys = event.commits[0]
        return [it.number for it in waiting if meet(it.commits[0], keys, touch)]

    def begin_unit(self, node, n):
        node.units[n] = "started"
        return node.kill(self.event(n).commits[0])

    def finish(self, node, answer, n):
        started = node.units.get(n) == "started"
        self.is_answered(answer, f"FINISHED {n}" if started else f"NO UNIT {n}")
        if started:
            node.units[n] = "finished"

    def advance(self, node, answer):
        n = node.committed + 1
        if n > node.certified:
            self.is_answered(answer, "NOTHING")
        elif self.is_ready(node, n):
            self.is_answered(answer, f"AT {n}")
            self.commit_next(node)
        else:
            self.is_answered(answer, f"NOT READY {n}")

    def is_ready(self, node, n):
        finished = node.units.get(n) == "finished"
        return finished or not self.event(n).is_commit() or self.is_local(node, n)

    def commit_next(self, node):
        node.committed += 1
        event = self.event(node.committed)
        node.units.pop(event.number, None)
        if event.is_commit():
            node.show(event)
            if event.trx.node is node and event.trx.status in (CERTIFIED, REPLAYING):
                node.end(event.trx, "COMMITTED")

    def report(self, node, answer):
        ready = node.is_synced()
        refusal = "DISCONNECTED" if node.left else "NOT SYNCED"
        self.is_answered(answer, f"REPORTED {node.committed}" if ready else refusal)
        if ready:
            node.outbox.append(Event("REPORT", node.member, last_seen=node.committed))

    def status(self, node, answer):
        floor = self.fold.floors[node.certified]
        first = min(floor, node.committed) + 1
        kept = (it for it in self.fold.commits if first <= it.number <= node.certified)
        kinds = (kinds_at(it.commits[0]).items() for it in kept)
        index = {(parts, kind) for each in kinds for parts, found in each for kind in found}
        places = f"{node.taken} {node.certified} {node.committed}"
        opened = self.fold.opens[node.certified]
        self.is_answered(answer, f"STATUS {places} {floor} {len(index)} {opened}")

    def leave(self, node, answer):
        due = "DISCONNECTED" if node.left else f"LEFT {len(self.fold.order) + 1}"
        self.is_answered(answer, due)
        if not node.left:
            self.fold.leave(node.member)
            node.leave()

    def join(self, node, answer, fresh=None):
        if not node.left:
            self.is_answered(answer, "STILL JOINED")
        elif node.taken != node.committed:
            self.is_answered(answer, f"NOT DRAINED {node.taken} {node.committed}")
        else:
            member = self.fold.join()
            view = len(self.fold.order)
            node.join(fresh is not None, member, view)
            self.is_answered(answer, f"JOINING {view} MEMBER {member}")

    def transfer(self, node, answer, number):
        donor = self.nodes[number]
        if not node.joining:
            self.is_answered(answer, "NOT JOINING")
        elif not donor.is_connected():
            self.is_answered(answer, "NO DONOR")
        elif donor.taken < node.view:
            self.is_answered(answer, f"DONOR BEHIND {node.view} {donor.taken}")
        elif node.has_id and self.has_event(donor, node.committed + 1):
            self.is_answered(answer, f"IST {node.committed + 1} {donor.taken}")
            node.taken, node.joining = donor.taken, False
        elif donor.certified != donor.committed:
            self.is_answered(answer, f"DONOR BUSY {donor.certified} {donor.committed}")
        elif donor.committed < node.view:
            self.is_answered(answer, f"DONOR BEHIND {node.view} {donor.committed}")
        else:
            self.is_answered(answer, f"SST {donor.committed}")
            node.install(donor)

    def has_event(self, node, number):
        """Whether the ring of a node has this event: all from it on fit, since the last snapshot."""
        entries = (it.entry() for it in self.fold.order[number - 1 : node.taken])
        return node.since < number <= node.taken and sum(entries) <= self.gcache

    def drain(self, node, answer):
        while node.outbox:
            self.order(node)
        if node.is_connected():
            node.taken = len(self.fold.order)
        while node.certified < node.taken:
            self.certify(node)
        while node.committed < node.certified:
            n = node.committed + 1
            if self.event(n).is_commit() and n not in node.units and not self.is_local(node, n):
                self.begin_unit(node, n)
            self.commit_next(node)
        self.is_answered(answer, f"AT {node.committed}")


def row_text(row):
    return "ROW " + " ".join(map(str, row)) if row else "NO ROW"


class Unread(Exception):
    """A schedule that is not in the form that is read here, or a text that is not of it."""


N, ROW = "[0-9]{1,20}", " [a-z]{1,16} [a-z0-9]{1,16}"
CALL = (
    f"begin|begin stream {N}|insert{ROW}( {N})+|update{ROW}( {N}={N})+"
    f"|(delete|share|read){ROW}|commit|rollback|poll"
)
VERB = f"order|take|certify|start {N}|finish {N}|advance|report|status|drain|leave|join( fresh)?"
STEP = re.compile(rf"({N})(\.{N} ({CALL})| ({VERB})| transfer ({N}))")
HEADER = re.compile(rf"cluster ({N}) gcache ({N}) id \S+")


def steps_of(schedule):
    """The header, and then the steps, each as its line number and its words."""
    lines = enumerate(schedule.split("\n"), 1)
    words = ((number, line.split()) for number, line in lines)
    found = [(number, it) for number, it in words if it and not it[0].startswith("#")]
    header = HEADER.fullmatch(" ".join(found[0][1])) if found else None
    if not header:
        raise Unread("the schedule has no header")
    return min(int(header.group(1)), 9), int(header.group(2)), found[1:]


def pairs_of(nodes, steps, lines, early):
    """The steps with their answers, held against the numbers that the lines begin with."""
    if early:
        steps = steps[: len(lines)]
    if len(lines) < len(steps):
        raise Unread(f"the text is not of the schedule: it has {len(lines)} lines")
    for at, ((number, words), line) in enumerate(zip(steps, lines), 1):
        first, _, answer = line.partition(" ")
        if first != str(number):
            raise Unread(f"the text is not of the schedule: line {at} answers no line {number}")
        form = STEP.fullmatch(" ".join(words))
        named = [int(it) for it in (form.group(1), form.groups()[-1]) if it] if form else [0]
        if not all(0 < it <= nodes for it in named):
            raise Unread(f"line {number} of the schedule is no step that is judged")
        yield at, words, answer


def judge(schedule, text, look=None):
    """Whether the answers are right: nothing, or Wrong with the line of the text. Before each
    step `look` is called with the run as it is there."""
    lines = text.split("\n")
    if lines.pop() != "":
        raise Unread("the text does not end with a newline")
    early = bool(lines) and re.fullmatch(r"READ|SCRIPT \d+ (grammar|limit)", lines[-1])
    if early and len(lines) == 1:
        return None
    nodes, gcache, steps = steps_of(schedule)
    run, told = Run(nodes, gcache), lines[:-1] if early else lines[: len(steps)]
    for at, words, answer in pairs_of(nodes, steps, told, early):
        if look:
            look(run, at, words, answer)
        try:
            run.step(words, answer, at)
        except Wrong as fault:
            raise Wrong(fault.reason, at)
    run.end()
    if not early:
        run.rest(lines, len(steps))
    return run
