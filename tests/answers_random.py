"""Random schedules, each made while the program runs it: the next steps are drawn by what the run
has come to, so that most do something. And generated ones, which come of a seed alone."""
import random
import subprocess

from answers_order import RUNNING, UPDATE, Wrong
from answers_run import Run

HEADER = "cluster {} gcache {} id 00000000-0000-0000-0000-0000000000a1"
ROWS = [(table, row) for table in ("acct", "log") for row in ("a", "b", "c")]


class Random:
    """Draws steps for a run. A node drawn seldom lags behind; sessions stream by chance."""

    def __init__(self, seed):
        self.draw = random.Random(seed)
        self.nodes = self.draw.choice([2, 2, 3, 3, 4])
        self.weights = [self.draw.choice([1, 2, 4]) for _ in range(self.nodes)]
        self.rows = ROWS[: self.draw.choice([2, 4, 6])]
        self.streams = self.draw.choice([0.1, 0.4, 0.8])
        self.drains = self.draw.choice([0.02, 0.1, 0.3])
        self.leaves = self.draw.choice([0, 0, 0.05, 0.3])
        self.joins = self.draw.choice([0.05, 0.5, 2])
        self.gcache = self.draw.choice([0, 300, 1000, 65536])
        self.run, self.value, self.opening = Run(self.nodes, self.gcache), 0, []
        if self.draw.random() < 0.7:
            self.opening = self.first_rows()

    def first_rows(self):
        """The steps that make all rows, which every node then has."""
        inserts = [f"1.1 insert {table} {row} 1 2" for table, row in self.rows]
        drains = [f"{node} drain" for node in range(2, self.nodes + 1)]
        return ["1 drain", "1.1 begin", *inserts, "1.1 commit", "1 drain", "1.1 poll", *drains]

    def chance(self, weighed):
        return self.draw.choices(list(weighed), weighed.values())[0]

    def step(self):
        if self.opening:
            return self.opening.pop(0)
        node = self.draw.choices([*self.run.nodes.values()], self.weights)[0]
        if node.committed and self.draw.random() < 0.55:
            session = self.draw.randint(1, 3)
            return f"{node.number}.{session} {self.call(node, session)}"
        return f"{node.number} {self.verb(node)}"

    def call(self, node, session):
        trx = node.live.get(session)
        at = self.draw.choice(self.rows)
        read = f"read {at[0]} {at[1]}"
        closed = not node.is_synced()
        if session in node.waiting or closed or trx and trx.status != RUNNING:
            return self.chance({"poll": 6, read: 1, "begin": 1})
        if not trx:
            stream = self.draw.random() < self.streams
            unit = f" stream {self.draw.choice([1, 1, 2, 3])}" if stream else ""
            return self.chance({f"begin{unit}": 8, read: 3, "poll": 1, "commit": 0.3})
        statement = self.statement(at, node.seen(session, at))
        share = self.late_share(node)
        commit = 5 if trx.new_changes or trx.fragments else 0.5
        found = {statement: 10, share: 4, "commit": commit, "rollback": 0.5, read: 3}
        return self.chance(found)

    def late_share(self, node):
        """The share of a row that a commit changes which is on its way to the node: the unit of
        that will abort the transaction, whose commit passes, and is replayed."""
        late = [it for it in self.run.fold.commits[-4:] if it.number > node.committed]
        rows = [at for it in late for at, kind in it.commits[0].items() if kind == UPDATE]
        return self.draw.choice([f"share {table} {row}" for table, row in rows] or ["poll"])

    def statement(self, at, seen):
        self.value += 1
        insert = f"insert {at[0]} {at[1]} {self.value} {self.value % 7}"
        if not seen:
            return self.chance({insert: 15, f"update {at[0]} {at[1]} 1=1": 1})
        column = self.draw.choice([1, 1, 2, 3])
        update = f"update {at[0]} {at[1]} {column}={self.value}"
        named = f"{at[0]} {at[1]}"
        return self.chance({update: 5, f"share {named}": 5, f"delete {named}": 1, insert: 0.5})

    def verb(self, node):
        if self.draw.random() < self.drains or self.draw.random() < 0.3 and not node.committed:
            return "drain"
        found = {"order": 3 if node.outbox else 0.05}
        found["advance"] = 2 if node.committed < node.certified else 0.05
        more = node.is_connected() and node.taken < len(self.run.fold.order)
        found["take"] = 4 if more else 0.05
        found["certify"] = 4 if node.certified < node.taken else 0.05
        for n in range(node.committed + 1, node.certified + 1):
            if n in node.units:
                found[f"finish {n}"] = 3
            elif self.run.event(n).is_commit():
                found[f"start {n}"] = 3
        found["report"] = 0.5
        found["status"] = 0.3
        found["leave"] = 0.01 if node.left else self.leaves
        self.add_joins(node, found)
        return self.chance(found)

    def add_joins(self, node, found):
        found["join"] = self.joins * (1 if node.left else 0.01)
        found["join fresh"] = found["join"] / 5
        for donor in self.run.nodes:
            found[f"transfer {donor}"] = self.joins * (2 if node.joining else 0.005)


def random_run(seed, program):
    """A schedule of this seed, and the text that the program prints for it."""
    steps = Random(seed)
    lines, text = [HEADER.format(steps.nodes, steps.gcache)], []
    pipes = {"stdin": subprocess.PIPE, "stdout": subprocess.PIPE}
    with subprocess.Popen([program, "steps"], text=True, **pipes) as ran:
        try:
            ran.stdin.write(lines[0] + "\n")
            for _ in range(steps.draw.choice([20, 40, 60])):
                drawn = [steps.step() for _ in range(steps.draw.randint(1, 7))]
                lines += drawn
                ran.stdin.write("".join(line + "\n" for line in drawn))
                ran.stdin.flush()
                text += [ran.stdout.readline() for _ in drawn]
                for line, answer in zip(drawn, text[-len(drawn) :]):
                    steps.run.step(line.split(), answer.partition(" ")[2].rstrip("\n"))
        except (Wrong, BrokenPipeError):
            pass
        ran.stdin.close()
        text += ran.stdout
    return "\n".join(lines) + "\n", "".join(text)


def generated(seed, rounds):
    """The generated schedule of this seed, as docs/RULES.md has it."""

    def draw(below):
        nonlocal seed
        seed = (seed * 6364136223846793005 + 1442695040888963407) % 2**64
        return seed // 2**33 % below

    drains = ["1 drain", "2 drain", "3 drain"]
    inserts = [f"1.1 insert acct r{row} 0" for row in range(64)]
    lines = ["cluster 3 gcache 1048576 id 00000000-0000-0000-0000-0000000000a1", *drains]
    lines += ["1.1 begin", *inserts, "1.1 commit", "1 drain", "1.1 poll", "2 drain", "3 drain"]
    for value in range(1, rounds + 1):
        session = f"{1 + draw(3)}.{1 + draw(4)}"
        rows = [draw(64), draw(64)]
        begin = "begin" if draw(8) else "begin stream 1"
        lines += [f"{session} poll", f"{session} {begin}"]
        lines += [f"{session} update acct r{row} 1={value}" for row in rows]
        lines += [f"{session} commit", f"{1 + draw(3)} drain"]
        if value % 16 == 0:
            lines += ["1 report", "2 report", "3 report"]
    return "\n".join([*lines, *drains, *drains]) + "\n"
