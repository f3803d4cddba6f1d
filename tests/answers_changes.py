"""Changes of one answer, each of which makes a right text wrong.

A change of one line is a function of the run before that line, of the node and the session that is
answered, the call and the answer: it gives the answers that are wrong there in its way.
"""
from answers_order import ENDED, PASS, Wrong, meet, touch
from answers_run import judge, row_text

DEADLOCK = ("DEADLOCK CERT", "DEADLOCK BF")


def told(answer):
    """What a waiting answer says: its kind and its number."""
    kind, _, number = answer.rpartition(" ")
    waits = kind in (*DEADLOCK, "COMMITTED") and number.isdigit() and int(number)
    return (kind, int(number)) if waits else (None, 0)


# COMMITTED.


def of_another_number(run, node, session, call, answer):
    """COMMITTED carries the number of another commit, or one that is near."""
    kind, n = told(answer)
    if kind == "COMMITTED":
        others = [it.number for it in run.fold.commits if it.number != n]
        yield from (f"COMMITTED {it}" for it in [*others, n + 1, n - 1])


def of_nothing(run, node, session, call, answer):
    """COMMITTED 0 is told of a transaction that committed."""
    if told(answer)[0] == "COMMITTED":
        yield "COMMITTED 0"


def lost(run, node, session, call, answer):
    """A commit is told as if there had been no transaction, or as rolled back."""
    if told(answer)[0] == "COMMITTED":
        yield from ("NO TRX", "ROLLED BACK", "OK")


def commit_as_deadlock(run, node, session, call, answer):
    """A commit is told as a deadlock with an earlier write set that touches it."""
    kind, n = told(answer)
    if kind == "COMMITTED":
        trx = run.event(n).trx
        for it in prevailing(run, trx):
            if it.number < n:
                yield from (f"{kind} {it.number}" for kind in DEADLOCK)


def twice(run, node, session, call, answer):
    """COMMITTED is told once more at the session's next call."""
    ended = [it for it in run.trxs if it.node is node and it.session == session and it.told]
    if ended and session not in node.waiting and told(ended[-1].told)[0] == "COMMITTED":
        if answer != ended[-1].told:
            yield ended[-1].told


def before_its_commit(run, node, session, call, answer):
    """COMMITTED is told once the commit passed, before the node has committed it."""
    trx = node.live.get(session)
    if session not in node.waiting and trx and trx.commits():
        yield f"COMMITTED {trx.commits()[0]}"


# DEADLOCK.


def prevailing(run, trx, passed=True, touches=True):
    """The write sets of others that passed and touch a transaction, or one of both alone."""
    for it in run.fold.order:
        if it.form in ("FRAGMENT", "COMMIT") and it.trx is not trx:
            met = meet(it.touching_keys(), trx.keys, touch)
            if (it.verdict == PASS) == passed and met == touches:
                yield it


def deadlocked(node, session, answer):
    kind, n = told(answer)
    trx = node.waiting[session][0] if kind in DEADLOCK else None
    failed = trx and trx.failure()
    return kind, trx, failed.number if failed else node.certified + 1


def names_a_failed_one(run, node, session, call, answer):
    """DEADLOCK names a write set that touches and stands before, but failed."""
    kind, trx, end = deadlocked(node, session, answer)
    for it in prevailing(run, trx, passed=False) if trx else ():
        if it.number < end:
            yield f"{kind} {it.number}"


def names_one_behind(run, node, session, call, answer):
    """DEADLOCK names a write set that passed and touches, but stands behind the failure, or is
    one that the node has not certified."""
    kind, trx, end = deadlocked(node, session, answer)
    for it in prevailing(run, trx) if trx else ():
        if it.number > end:
            yield f"{kind} {it.number}"


def names_one_apart(run, node, session, call, answer):
    """DEADLOCK names a write set that passed before, but does not touch."""
    kind, trx, end = deadlocked(node, session, answer)
    for it in prevailing(run, trx, touches=False) if trx else ():
        if it.number < end:
            yield f"{kind} {it.number}"


def names_its_own(run, node, session, call, answer):
    """DEADLOCK names a write set of the transaction itself, a view, or no event."""
    kind, trx, _ = deadlocked(node, session, answer)
    if trx:
        yield from (f"{kind} {it.number}" for it in trx.events)
        yield from (f"{kind} {n}" for n in (0, 1, len(run.fold.order) + 1))


def deadlock_as_other(run, node, session, call, answer):
    """A deadlock is told as a commit, as rolled back, as the other one, or not at all."""
    kind, trx, _ = deadlocked(node, session, answer)
    if trx:
        n = told(answer)[1]
        other = DEADLOCK[kind == DEADLOCK[0]]
        numbers = [it.number for it in trx.events] + [n]
        yield from (f"COMMITTED {it}" for it in numbers)
        yield from ("ROLLED BACK", "COMMITTED 0", "NO TRX", f"{other} {n}")


def rolled_back_as_other(run, node, session, call, answer):
    """A transaction that was rolled back is told to be committed."""
    trx = node.live.get(session)
    if answer == "ROLLED BACK":
        yield from (f"COMMITTED {it.number}" for it in trx.events)
        yield "COMMITTED 0"


# What a node that leaves tells.


def left_as_other(run, node, session, call, answer):
    """A session of a node that left is told another end of its transaction."""
    trx, waiting = node.waiting.get(session, (None, None))
    if waiting in ("UNKNOWN", "DISCONNECTED"):
        yield from ("UNKNOWN", "DISCONNECTED", "ROLLED BACK", "COMMITTED 0", "NO TRX")
        yield from (f"COMMITTED {it.number}" for it in trx.events)


def taken_is_unknown(run, node, session, call, answer):
    """UNKNOWN is told of a commit that the node had taken."""
    trx = node.live.get(session)
    if node.left and trx and session not in node.waiting:
        yield from ("UNKNOWN", "DISCONNECTED")


def join_turned(run, node, session, call, answer):
    """A join gives a member that a view had, or another number, or is refused."""
    words = answer.split()
    if words[0] == "JOINING":
        view, member = int(words[1]), int(words[3])
        yield from (f"JOINING {view} MEMBER {it}" for it in (member - 1, member + 1, node.member))
        yield from (f"JOINING {view + 1} MEMBER {member}", "STILL JOINED", "NOTHING")


def transfer_turned(run, node, session, call, answer):
    """A transfer goes by events that the ring has not, by a snapshot where it has them, from a
    donor that is behind or busy, or to another number."""
    words = answer.split()
    if call[0] == "transfer" and node.joining:
        donor = run.nodes[int(call[1])]
        yield f"IST {node.committed + 1} {donor.taken}"
        yield from (f"SST {donor.committed}", f"SST {donor.taken}", "NO DONOR", "NOT JOINING")
        yield f"DONOR BUSY {donor.certified} {donor.committed}"
        yield f"DONOR BEHIND {node.view} {donor.taken}"
    if words[0] in ("IST", "SST"):
        yield " ".join([*words[:-1], str(int(words[-1]) + 1)])


def answered_while_joining(run, node, session, call, answer):
    """A session of a node that has not committed the view of its member is served."""
    if session and answer == "NOT SYNCED":
        yield from ("OK", "NO TRX", "DISCONNECTED", "PENDING")


def status_turned(run, node, session, call, answer):
    """A status has another floor, or counts other entries or open transactions."""
    words = answer.split()
    if words[0] == "STATUS":
        for at in (4, 5, 6):
            yield " ".join([*words[:at], str(int(words[at]) + 1), *words[at + 1 :]])


# Rows that a read shows.


def row_read(call, answer):
    """The row that is shown, or None where the step is no read or is refused."""
    shown = call[0] == "read" and (answer == "NO ROW" or answer.startswith("ROW "))
    return (call[1], call[2]) if shown else None


def changed_by(trx, at, node):
    """The row as a transaction would show it on a node, where it changed the row."""
    return [row_text(trx.seen(at, node.rows.get(at)))] if at in trx.changes_at else []


def fragment_shown(run, node, session, call, answer):
    """A read shows a row of an open fragment of another transaction."""
    for trx in run.fold.open:
        if node.live.get(session) is not trx:
            yield from changed_by(trx, row_read(call, answer), node)


def open_change_shown(run, node, session, call, answer):
    """A read shows a change of another session that was not sent."""
    for trx in run.trxs:
        if trx.status != ENDED and not trx.events and node.live.get(session) is not trx:
            yield from changed_by(trx, row_read(call, answer), node)


def ended_change_shown(run, node, session, call, answer):
    """A read shows a row of a transaction that was rolled back or failed."""
    for trx in run.trxs:
        if trx.status == ENDED and not trx.commits():
            yield from changed_by(trx, row_read(call, answer), node)


def commit_shown_early(run, node, session, call, answer):
    """A read shows a commit that the node has not committed."""
    for it in run.fold.commits:
        if it.number > node.committed:
            yield from changed_by(it.trx, row_read(call, answer), node)


def own_change_hidden(run, node, session, call, answer):
    """A read in a transaction does not show its own change."""
    if row_read(call, answer) and session in node.live:
        yield row_text(node.rows.get(row_read(call, answer)))


# Steps of nodes.


def verdict_turned(run, node, session, call, answer):
    """What failed is said to have passed, or what passed to have failed."""
    words = answer.split()
    if words[0] == "FAIL":
        yield from (f"PASS {words[1]} {form}" for form in ("COMMIT", "FRAGMENT"))
    if words[0] == "PASS" and words[2] != "ROLLBACK":
        yield f"FAIL {words[1]} CONFLICT {int(words[1]) - 1}"


def spared(run, node, session, call, answer):
    """A unit starts, and the sessions that it aborts are not named."""
    if " KILLED " in answer:
        yield answer.partition(" KILLED ")[0]


OF_A_LINE = [
    of_another_number, of_nothing, lost, commit_as_deadlock, twice, before_its_commit,
    names_a_failed_one, names_one_behind, names_one_apart, names_its_own, deadlock_as_other,
    rolled_back_as_other, left_as_other, taken_is_unknown, join_turned, transfer_turned,
    answered_while_joining, status_turned, fragment_shown,
    open_change_shown, ended_change_shown,
    commit_shown_early, own_change_hidden, verdict_turned, spared,
]  # fmt: skip


# Changes of more than one line, or of the lines behind the steps: from the lines of the text.


def swapped(run, lines):
    """What two sessions were told is swapped."""
    told_at = [trx.told_at for trx in run.trxs if trx.told and told(trx.told)[0]]
    for one, other in zip(told_at, told_at[1:]):
        (a, first), (b, second) = (lines[at - 1].split(" ", 1) for at in (one, other))
        if first != second:
            made = list(lines)
            made[one - 1], made[other - 1] = f"{a} {second}", f"{b} {first}"
            yield made


def row_lost(run, lines):
    """A committed row is not printed at the end."""
    yield from (lines[:at] + lines[at + 1 :] for at, line in ends(lines, "row"))


def row_changed(run, lines):
    """A committed row is printed with another value."""
    for at, line in ends(lines, "row"):
        yield [*lines[:at], f"{line}1", *lines[at + 1 :]]


def place_changed(run, lines):
    """A node is printed at another place."""
    for at, line in ends(lines, "node"):
        yield [*lines[:at], f"{line}0", *lines[at + 1 :]]


def row_of_none(run, lines):
    """A row of a transaction that never committed is printed at the end."""
    for trx in run.trxs:
        for (table, row) in () if trx.commits() else trx.changes_at:
            shown = row_text(trx.seen((table, row), None)).split(" ", 1)[1]
            for at, line in ends(lines, "node"):
                if shown != "ROW":
                    yield [*lines[: at + 1], f"row {table} {row} {shown}", *lines[at + 1 :]]


def ends(lines, word):
    return [(at, line) for at, line in enumerate(lines) if line.startswith(word)]


OF_A_TEXT = [swapped, row_lost, row_changed, place_changed, row_of_none]


def changes_of(schedule, text):
    """The ways of change, each with the texts that it gives."""
    lines = text.split("\n")[:-1]
    found = {}

    def look(run, at, words, answer):
        number, _, session = words[0].partition(".")
        node = run.nodes[int(number)]
        for kind in OF_A_LINE:
            for other in kind(run, node, int(session or 0), words[1:], answer):
                if other != answer:
                    found.setdefault(kind, []).append((at, other))

    run = judge(schedule, text, look)
    for kind, places in found.items():
        yield kind, [with_answer(lines, at, other) for at, other in places]
    for kind in OF_A_TEXT:
        yield kind, list(kind(run, lines))


def with_answer(lines, at, answer):
    number = lines[at - 1].split(" ")[0]
    return [*lines[: at - 1], f"{number} {answer}", *lines[at:]]
