"""A model of the machine of groups of three that follows docs/FORMATS.md and shares no code with the program.

Nodes are named by the words of events. Of an item its number on its edge is enough here, so a node has only numbers:
up to which number it took of each in-edge (marks), how many items it merged (count), up to which number each out-edge
was acknowledged (lows), and the next number that it sends to each replica of each target (cursors)."""

from copy import copy as copy_of, deepcopy

COPIES = 3


class Refused(Exception):
    """An event that is no step, in the words of the program."""


class Flow:
    """What the plan says of its edges: with which merged item how many items of each in-edge are used up, and how many of each
    out-edge are made."""

    def __init__(self, parts, used, made, rows):
        # Of ingress and of each stage how many partitions there are, then 1 for egress.
        self.parts = [1, *parts, 1]
        # used[stage, part][count][source] and made[stage, part][count][target], from no item on.
        self.used, self.made = used, made
        # The rows that egress emitted after so many merged items.
        self.rows = rows

    def stages(self):
        return len(self.parts) - 2

    def groups(self):
        return [(stage, part) for stage in range(1, self.stages() + 1) for part in range(self.parts[stage])]


def producer(leads, targets, copies):
    return {"lows": [0] * targets, "cursors": [[1] * copies for _ in range(targets)], "term": int(leads), "leads": leads}


def consumer(sources):
    return {"marks": [0] * sources, "told": [0] * sources, "count": 0}


class Machine:
    def __init__(self, flow):
        self.flow, self.nodes, self.sent = flow, {}, {}
        last = flow.stages()
        copies = lambda stage: 1 if stage == last else COPIES
        self.nodes["in"] = producer(True, flow.parts[1], copies(0)) | {"count": 0}
        for stage, part in flow.groups():
            sources, targets = flow.parts[stage - 1], flow.parts[stage + 1]
            for copy in range(COPIES):
                self.nodes[f"{stage}.{part}.{copy}"] = consumer(sources) | producer(copy == 0, targets, copies(stage))
            self.nodes[f"{stage}.{part}.c"] = {
                "up": [True] * COPIES, "reports": [[0] * sources for _ in range(COPIES)], "acked": [0] * sources, "term": 1, "leader": 0}
        self.nodes["out"] = consumer(flow.parts[last])

    # ---- names

    def place(self, name):
        """The stage and the partition of a node."""
        if name in ("in", "out"):
            return (0, 0) if name == "in" else (self.flow.stages() + 1, 0)
        stage, part, _ = name.split(".")
        return int(stage), int(part)

    def producers(self, stage, source):
        """The nodes from which an edge to this stage comes."""
        return ["in"] if stage == 1 else [f"{stage - 1}.{source}.{copy}" for copy in range(COPIES)]

    def is_running(self, name):
        return self.nodes[name] is not None

    # ---- what the plan says

    def made(self, name, target):
        return self.flow.made[self.place(name)][self.nodes[name]["count"]][target]

    def is_ready(self, name):
        node, used = self.nodes[name], self.flow.used[self.place(name)]
        return all(used[node["count"]][source] < mark for source, mark in enumerate(node["marks"]))

    # ---- packets

    def send(self, sender, receiver, packet):
        self.sent.setdefault((sender, receiver), []).append(packet)

    def take(self, sender, receiver, index):
        packets = self.sent.get((sender, receiver), [])
        if not 1 <= index <= len(packets):
            raise Refused(f"not sent, index {index}, sent {len(packets)}")
        kind, *what = packets[index - 1]
        if receiver.endswith(".c"):
            self.hear(receiver, int(sender[-1]), kind, *what)
        elif self.is_running(receiver):
            getattr(self, f"take_{kind}", lambda *_: None)(self.nodes[receiver], *what)

    def take_tuple(self, node, edge, number):
        if number == node["marks"][edge[0]] + 1:
            node["marks"][edge[0]] = number

    def take_ack(self, node, edge, upto):
        low = node["lows"][edge[1]] = max(node["lows"][edge[1]], upto)
        node["cursors"][edge[1]] = [max(it, low + 1) for it in node["cursors"][edge[1]]]

    def take_lead(self, node, term):
        if term > node["term"]:
            node["term"], node["leads"] = term, True
            node["cursors"] = [[low + 1] * len(cursors) for low, cursors in zip(node["lows"], node["cursors"])]

    def hear(self, name, copy, kind, *what):
        """What a controller does with a packet of one of its three replicas."""
        node, (stage, part) = self.nodes[name], self.place(name)
        if node["up"][copy]:
            if kind == "report":
                (source, _), upto = what
                node["reports"][copy][source] = max(node["reports"][copy][source], upto)
            elif kind == "down":
                self.goes_down(node, stage, part, copy)
        for source, acked in enumerate(node["acked"]):
            reports = [report[source] for report, up in zip(node["reports"], node["up"]) if up]
            if reports and min(reports) > acked:
                node["acked"][source] = min(reports)
                for to in self.producers(stage, source):
                    self.send(name, to, ("ack", (source, part), min(reports)))

    def goes_down(self, node, stage, part, copy):
        node["up"][copy] = False
        if node["leader"] == copy:
            node["leader"] = next((it for it in range(COPIES) if node["up"][it]), None)
            if node["leader"] is not None:
                node["term"] += 1
                self.send(f"{stage}.{part}.c", f"{stage}.{part}.{node['leader']}", ("lead", node["term"]))

    # ---- other events

    def make(self):
        node = self.nodes["in"]
        if node["count"] + 1 == len(self.flow.made[0, 0]):
            raise Refused("no more rows")
        node["count"] += 1

    def kill(self, name):
        if not self.is_running(name):
            raise Refused("not running")
        self.nodes[name] = None
        self.send(name, name[:-1] + "c", ("down",))

    def pull(self, sender, receiver):
        if not (self.is_running(sender) and self.is_running(receiver)):
            raise Refused("not running")
        source, target = self.place(sender)[1], self.place(receiver)[1]
        low, made = self.nodes[sender]["lows"][target], self.made(sender, target)
        mark = self.nodes[receiver]["marks"][source]
        if not low <= mark < made:
            raise Refused(f"not held, low {low}, mark {mark}, produced {made}")
        self.nodes[receiver]["marks"][source] += 1

    def work(self, name):
        node = None if name.endswith(".c") else self.nodes[name]
        stage, part = self.place(name)
        if node is None:
            raise Refused("nothing due")
        if "marks" in node and self.is_ready(name):
            node["count"] += 1
            return
        due = self.due(name) if "cursors" in node else None
        if due:
            number, target, copy = due
            node["cursors"][target][copy] += 1
            to = "out" if stage == self.flow.stages() else f"{stage + 1}.{target}.{copy}"
            self.send(name, to, ("tuple", (part, target), number))
            return
        for source, mark in enumerate(node.get("marks", [])):
            if mark > node["told"][source]:
                node["told"][source] = mark
                if name != "out":
                    self.send(name, f"{stage}.{part}.c", ("report", (source, part), mark))
                else:
                    for to in self.producers(stage, source):
                        self.send(name, to, ("ack", (source, part), mark))
                return
        raise Refused("nothing due")

    def due(self, name):
        """What a node that leads sends next: the least number, then the first target, then its first replica."""
        node = self.nodes[name]
        if not node["leads"]:
            return None
        cursors = [(number, target, copy) for target, copies in enumerate(node["cursors"]) for copy, number in enumerate(copies)]
        return min((it for it in cursors if it[0] <= self.made(name, it[1])), default=None)

    # ---- what `flux trio` writes

    def is_lost(self, stage, part):
        up = self.nodes[f"{stage}.{part}.c"]["up"]
        return not any(up[copy] and self.is_running(f"{stage}.{part}.{copy}") for copy in range(COPIES))

    def text(self, row):
        """The lines for the groups, for the drain, and for the rows emitted, each in the words of `row`."""
        lines = ["trio 1"]
        for stage, part in self.flow.groups():
            control = self.nodes[f"{stage}.{part}.c"]
            leader = "none" if control["leader"] is None else control["leader"]
            lines.append(f"{stage}.{part}.c term={control['term']} lead={leader}")
            for copy in range(COPIES):
                node = self.nodes[f"{stage}.{part}.{copy}"]
                lines.append(f"{stage}.{part}.{copy} " + ("gone" if node is None else f"running count={node['count']}"))
        merged = self.nodes["out"]["count"]
        lost = [it for it in self.flow.groups() if self.is_lost(*it)] if merged + 1 < len(self.flow.rows) else []
        lines.append("drained lost {}.{}".format(*lost[0]) if lost else "drained whole")
        lines += ["row " + row(it) for it in self.flow.rows[merged if lost else -1]]
        return "\n".join(lines) + "\n"


def any_events(rng, machine, most):
    """Random events from the opening on, each of them a step: the lines of a text of events, without repeats."""
    nodes, lines, taken, kills = list(machine.nodes), [], {}, rng.choice([0, 1, 2, 3, 3])
    groups = machine.flow.groups()
    # Kills fall on few groups, so that some of them lose their leader twice, and some all three.
    struck = rng.sample(groups, min(len(groups), rng.choice([1, 1, 1, 2])))
    while len(lines) < most:
        kind = rng.choices(["work", "take", "make", "pull", "kill"], [8, 10, 3, 2, 1])[0]
        try:
            if kind == "make":
                machine.make()
                lines.append("make")
            elif kind == "work":
                name = rng.choice(nodes)
                machine.work(name)
                lines.append(f"work {name}")
            elif kind == "take":
                link = rng.choice(list(machine.sent) or [("in", "out")])
                # Mostly the next one of its link; now and then one out of turn.
                index = taken.get(link, 0) + 1
                index = index if rng.random() < 0.9 else rng.randint(1, index + 2)
                machine.take(*link, index)
                taken[link] = max(taken.get(link, 0), index)
                lines.append("take {}>{} {}".format(*link, index))
            elif kind == "pull":
                stage = rng.randint(0, machine.flow.stages())
                ends = [[it for it in nodes if machine.place(it)[0] == stage + more and not it.endswith(".c")] for more in (0, 1)]
                one, two = (rng.choice(it) for it in ends)
                machine.pull(one, two)
                lines.append(f"pull {one} {two}")
            elif kills:
                stage, part = rng.choice(struck)
                leader = machine.nodes[f"{stage}.{part}.c"]["leader"]
                copy = leader if leader is not None and rng.random() < 0.7 else rng.randrange(COPIES)
                machine.kill(f"{stage}.{part}.{copy}")
                lines.append(f"kill {stage}.{part}.{copy}")
                kills -= 1
        except Refused:
            if rng.random() < 0.002:
                break
            most -= 1
    return lines



def any_refused(rng, machine):
    """A random event that is no step where the machine stands, and what is said of it; or none, where none was found."""
    nodes, stages = list(machine.nodes), machine.flow.stages()
    replicas = [it for it in nodes if it.count(".") == 2 and not it.endswith(".c")]
    for _ in range(30):
        stage, replica, node = rng.randint(0, stages), rng.choice(replicas), rng.choice(nodes)
        one, two = (rng.choice([it for it in nodes if machine.place(it)[0] == stage + more and not it.endswith(".c")]) for more in (0, 1))
        link = rng.choice([(one, two), (replica, replica[:-1] + "c")])
        index = rng.choice([0, len(machine.sent.get(link, [])) + rng.randint(1, 3)])
        tried = copy_of(machine)
        tried.nodes, tried.sent = deepcopy(machine.nodes), deepcopy(machine.sent)
        event, step = rng.choice([
            ("make", tried.make),
            (f"work {node}", lambda: tried.work(node)),
            ("take {}>{} {}".format(*link, index), lambda: tried.take(*link, index)),
            (f"kill {replica}", lambda: tried.kill(replica)),
            (f"pull {one} {two}", lambda: tried.pull(one, two)),
        ])
        try:
            step()
        except Refused as why:
            return event, str(why)
    return None, None
