"""The order of a run and what it means: keys, rows, transactions, events, verdicts and commits.

Written from docs/RULES.md: names and rows, changes, keys and kinds, verdicts and the fold state.
"""
SHARED, UPDATE, EXCLUSIVE = 1, 2, 3
RUNNING, FRAGMENT_SENT, COMMIT_SENT = "Running", "FragmentSent", "CommitSent"
CERTIFIED, KILLED_SENT, REPLAYING, ENDED = "Certified", "KilledSent", "Replaying", "ended"
HAS_LOCKS = (RUNNING, FRAGMENT_SENT, COMMIT_SENT, CERTIFIED)
PASS = ("PASS", None)


class Wrong(Exception):
    """An answer that is not right, and why."""

    def __init__(self, reason, at=None):
        super().__init__(reason)
        self.reason, self.at = reason, at


def demand(holds, reason):
    if not holds:
        raise Wrong(reason)


# Keys: a map from parts, which are a table and a row or None, to a kind.


def add_key(keys, parts, kind):
    keys[parts] = max(kind, keys.get(parts, SHARED))


def kinds_at(keys):
    """The kinds at each parts. The key of a row is shared at its table too."""
    found = {}
    for (table, row), kind in keys.items():
        found.setdefault((table, row), set()).add(kind)
        if row is not None:
            found.setdefault((table, None), set()).add(SHARED)
    return found


def conflict(one, other):
    return EXCLUSIVE in (one, other) or one == other == UPDATE


def touch(one, other):
    return not one == other == SHARED


def meet(one, other, related):
    """Whether at some parts a kind of the one and a kind of the other are related."""
    less, more = sorted((kinds_at(one), kinds_at(other)), key=len)
    return any(related(a, b) for parts in less for a in less[parts] for b in more.get(parts, ()))


# A row is a tuple of values, or None where there is none. A change is a function from row to row;
# its size is that of its bytes behind its tag and its row.


def inserted(values):
    def change(old):
        return values

    change.size = 1 + 8 * len(values)
    return change


def updated(pairs):
    def change(old):
        return old and tuple(pairs.get(column, value) for column, value in enumerate(old, 1))

    change.size = 1 + 9 * len(pairs)
    return change


def deleted(old):
    return None


deleted.size = 0


def place_size(parts):
    """The bytes of a row's names, or of a table's."""
    return sum(1 + len(name) for name in parts if name is not None)


class Transaction:
    def __init__(self, node, session, begin, unit):
        self.node, self.session, self.begin, self.unit = node, session, begin, unit
        self.member = node.member
        self.status, self.keys, self.changes_at = RUNNING, {}, {}
        self.new_keys, self.new_changes, self.fragments = {}, [], 0
        self.events, self.told, self.told_at, self.images = [], None, None, {}

    def add(self, at, kind, change=None):
        add_key(self.keys, at, kind)
        add_key(self.new_keys, at, kind)
        if change is not None:
            self.changes_at.setdefault(at, []).append(change)
            self.new_changes.append((at, change))

    def seen(self, at, committed):
        """Its changes of this row done on the committed row. What was done before is kept."""
        base, image, count = self.images.get(at, (None, None, 0))
        if count == 0 or base != committed:
            image, count = committed, 0
        changes = self.changes_at.get(at, ())
        for change in changes[count:]:
            image = change(image)
        self.images[at] = (committed, image, len(changes))
        return image

    def is_due(self):
        return 0 < self.unit == len(self.new_changes)

    def commits(self):
        return [event.number for event in self.events if event.is_commit()]

    def failure(self):
        """Its write set that failed, if one did."""
        return next((event for event in self.events if event.verdict != PASS), None)


class Event:
    """A write set, a report or a view; its number and verdict come with the order."""

    def __init__(self, kind, member=None, trx=None, form=None, last_seen=0, serial=0):
        self.kind, self.member, self.trx, self.form = kind, member, trx, form
        self.last_seen, self.serial = last_seen, serial
        self.keys, self.changes, self.fragment = {}, [], 0
        self.number, self.verdict, self.commits, self.members = None, PASS, None, ()

    def is_commit(self):
        return self.form == "COMMIT" and self.verdict == PASS

    def entry(self):
        """What it takes in a ring of events."""
        if self.kind != "WRITE":
            return 24 + (13 if self.kind == "REPORT" else 9 + 4 * len(self.members))
        keys = sum(2 + place_size(parts) for parts in self.keys)
        changes = sum(1 + place_size(at) + change.size for at, change in self.changes)
        return 24 + 9 + 42 + keys + changes

    def touching_keys(self):
        """Its keys, or all of its transaction where it is a commit that passed."""
        return self.commits[0] if self.commits else self.keys

    def text(self):
        """What certifying it answers."""
        if self.kind != "WRITE":
            return f"{self.kind} {self.number}"
        if self.verdict == PASS:
            return f"PASS {self.number} {self.form}"
        return f"FAIL {self.number} {self.verdict[1]}"


class Fold:
    """The order, and what it means after its last event."""

    def __init__(self, members):
        self.order, self.floor, self.commits, self.open = [], 0, [], {}
        self.reports, self.serials, self.last_member = {}, {}, 0
        # By number: the floor and the count of open transactions after so many events.
        self.floors, self.opens = [0], [0]
        self.view(members)

    def view(self, members):
        """The members from here on. What is open of absent ones goes."""
        event = Event("VIEW")
        event.members = members
        self.last_member = max([self.last_member, *members])
        self.enter(event)
        self.reports = {it: self.reports.get(it, event.number) for it in members}
        self.serials = {it: self.serials.get(it, 0) for it in members}
        self.open = {trx: it for trx, it in self.open.items() if trx.member in self.reports}
        self.settle()

    def leave(self, member):
        self.view([it for it in self.reports if it != member])

    def join(self):
        """A new member enters, whose number no view had before."""
        self.view([*self.reports, self.last_member + 1])
        return self.last_member

    def settle(self):
        self.floor = min(self.reports.values(), default=self.floor)
        self.floors.append(self.floor)
        self.opens.append(len(self.open))

    def enter(self, event):
        self.order.append(event)
        event.number = len(self.order)

    def put(self, event):
        """The event takes the next number, and its verdict."""
        self.enter(event)
        if event.kind == "REPORT":
            if self.reports.get(event.member, event.number) <= event.last_seen < event.number:
                self.reports[event.member] = event.last_seen
        else:
            event.trx.events.append(event)
            event.verdict = self.verdict(event)
            if event.verdict not in (("FAIL", "STRANGER"), ("FAIL", "REPEAT")):
                self.serials[event.member] = event.serial
                self.follow(event)
        self.settle()

    def verdict(self, event):
        if event.member not in self.serials:
            return ("FAIL", "STRANGER")
        if event.serial <= self.serials[event.member]:
            return ("FAIL", "REPEAT")
        if event.last_seen >= event.number:
            return ("FAIL", "FUTURE")
        if event.last_seen < self.floor:
            return ("FAIL", "STALE")
        if event.form == "ROLLBACK":
            return PASS
        if self.is_broken(event, self.open.get(event.trx, [])):
            return ("FAIL", "BROKEN")
        for commit in reversed(self.commits):
            if commit.number <= event.last_seen:
                break
            if meet(commit.commits[0], event.keys, conflict):
                return ("FAIL", f"CONFLICT {commit.number}")
        others = [it for trx, parts in self.open.items() if trx is not event.trx for it in parts]
        held = [it.number for it in others if meet(it.keys, event.keys, touch)]
        return ("FAIL", f"HELD {max(held)}") if held else PASS

    def is_broken(self, event, before):
        keys = {parts for part in [*before, event] for parts in part.keys}
        late = bool(before) and event.last_seen < before[-1].last_seen
        return event.fragment != len(before) or late or len(keys) > 4096

    def follow(self, event):
        """What the event does to the open transactions and the commits."""
        if event.verdict == PASS and event.form == "FRAGMENT":
            self.open.setdefault(event.trx, []).append(event)
            return
        parts = [*self.open.pop(event.trx, []), event]
        if event.is_commit():
            keys = {}
            for part in parts:
                for at, kind in part.keys.items():
                    add_key(keys, at, kind)
            event.commits = (keys, [change for part in parts for change in part.changes])
            self.commits.append(event)
