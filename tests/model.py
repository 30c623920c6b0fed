#!/usr/bin/env python3
"""The script language by 01, in plain Python: reads commands on standard input, prints every answer.

Tags are triples (class, offset, microstep), whose order as triples is 01's order of tags.
"""
import struct
import sys

MEMBERS, EDGES, TAGS = 32, 256, 32
STRETCH = 2 * TAGS
SLAB, ROOM = 2112, 512
IMAGE = 31920
LINE = 65600
LARGEST = 2**64 - 1
L = 2**63 - 1
M = 2**64 - 1

NEVER, ZERO, FOREVER, NONE = (0, 0, 0), (1, 0, 0), (2, 0, 0), (3, 0, 0)
HELLO, PUBLISH, COMPLETE, PAYLOAD, CONFIRM, STOP, ABORT = range(1, 8)
STARTED, GRANT, PAID, IDLE, STOPPED, SUPPRESS, FAILED = range(1, 8)


class Refusal(Exception):
    """One numbered refusal; fields that are not given are 0."""

    def __init__(self, number, mask=0, first=0, second=0):
        super().__init__(number)
        self.words = (number, mask, first, second)


class Failure(Exception):
    """A cause from 20 to 32, which ends the session."""

    def __init__(self, cause, code=0):
        super().__init__(cause)
        self.cause, self.code = cause, code


class Unreadable(Exception):
    """A line that is answered with error."""


# Tags


def is_finite(tag):
    return tag[0] == 1


def delay(tag, d):
    return (1, tag[1] + d, 0) if is_finite(tag) and d > 0 else tag


def predecessor(tag):
    if not is_finite(tag):
        return tag
    _, offset, micro = tag
    if micro > 0:
        return (1, offset, micro - 1)
    return (1, offset - 1, M) if offset > 0 else NEVER


def subtract(tag, d):
    if not is_finite(tag) or d == 0:
        return tag
    return (1, tag[1] - d, M) if d <= tag[1] else NEVER


# Plans


class Plan:
    """Members (id, capacity) and edges (id, source, target, delay) in order, and their analysis."""

    def __init__(self, members, edges):
        self.members, self.edges = members, edges
        n = len(members)
        self.direct = [[None] * n for _ in range(n)]
        for _, source, target, d in edges:
            old = self.direct[source][target]
            self.direct[source][target] = d if old is None else min(old, d)
        self.least = minimum_delays(self.direct)
        self.incoming = [[(s, self.least[s][t]) for s in range(n) if self.least[s][t] is not None] for t in range(n)]
        self.feeding = [[(s, self.direct[s][t]) for s in range(n) if self.direct[s][t] is not None] for t in range(n)]
        self.downstream = [[t for t in range(n) if t != s and self.least[s][t] is not None] for s in range(n)]


def minimum_delays(direct):
    """Least sums over all paths of one or more edges, exactly."""
    n = len(direct)
    least = [row[:] for row in direct]
    for middle in range(n):
        for source in range(n):
            head = least[source][middle]
            if head is None:
                continue
            row = least[source]
            for target, tail in enumerate(least[middle]):
                if tail is not None and (row[target] is None or head + tail < row[target]):
                    row[target] = head + tail
    return least


def read_plan(data):
    """Refusals 1 to 7, then the plan."""
    if len(data) < 24:
        raise Refusal(1)
    version, n, e, member_offset, edge_offset, total = struct.unpack_from("<6I", data)
    if version != 1:
        raise Refusal(1)
    if n > MEMBERS:
        raise Refusal(2)
    if e > EDGES:
        raise Refusal(3)
    if (member_offset, edge_offset, total) != (24, 24 + 16 * n, 24 + 16 * n + 32 * e) or len(data) != total:
        raise Refusal(1)
    members = []
    for row in range(n):
        identity, capacity, zero = struct.unpack_from("<QII", data, 24 + 16 * row)
        if zero != 0:
            raise Refusal(1)
        if capacity > TAGS:
            raise Refusal(4)
        members.append((identity, capacity))
    seen = set()
    for identity, _ in members:
        if identity in seen:
            raise Refusal(5, first=identity)
        seen.add(identity)
    members.sort()
    position = {identity: at for at, (identity, _) in enumerate(members)}
    edges, seen = [], set()
    for row in range(e):
        identity, source, target, d = struct.unpack_from("<4Q", data, 24 + 16 * n + 32 * row)
        if identity in seen:
            raise Refusal(6, first=identity)
        seen.add(identity)
        for end in (source, target):
            if end not in position:
                raise Refusal(7, first=identity, second=end)
        edges.append((identity, position[source], position[target], d))
    edges.sort()
    return Plan(members, edges)


def zero_component(plan):
    """Members of the zero-delay component with a closed walk and the smallest member, or none."""
    n = len(plan.members)
    for start in range(n):
        if plan.least[start][start] == 0:
            return [m for m in range(n) if plan.least[start][m] == 0 and plan.least[m][start] == 0]
    return []


def check_delays(plan):
    """Refusals 8 and 9."""
    component = zero_component(plan)
    if component:
        raise Refusal(8, mask=sum(1 << m for m in component))
    for source, row in enumerate(plan.least):
        for target, least in enumerate(row):
            if least is not None and least > LARGEST:
                raise Refusal(9, first=plan.members[source][0], second=plan.members[target][0])


def image_of(plan):
    """The compiled plan's bytes."""
    counts = [len(plan.members), len(plan.edges)]
    counts += [sum(map(len, rows)) for rows in (plan.feeding, plan.incoming, plan.downstream)]
    offsets = [48]
    for count, width in zip(counts, (40, 24, 16, 16, 4)):
        offsets.append(offsets[-1] + count * width)
    out = [struct.pack("<12I", 1, *counts, *offsets)]
    firsts = [0, 0, 0]
    for at, (identity, capacity) in enumerate(plan.members):
        sizes = [len(rows[at]) for rows in (plan.feeding, plan.incoming, plan.downstream)]
        pairs = [word for pair in zip(firsts, sizes) for word in pair]
        out.append(struct.pack("<Q8I", identity, capacity, *pairs, 0))
        firsts = [first + size for first, size in zip(firsts, sizes)]
    out += [struct.pack("<QIIQ", *edge) for edge in plan.edges]
    for table in (plan.feeding, plan.incoming):
        out += [struct.pack("<IIQ", source, 0, d) for rows in table for source, d in rows]
    out += [struct.pack("<I", target) for rows in plan.downstream for target in rows]
    return b"".join(out)


def compile_plan(data, room):
    plan = read_plan(data)
    check_delays(plan)
    image = image_of(plan)
    if room < len(image):
        raise Refusal(10)
    return image


def recognise(image):
    """The plan that an image was compiled from, or none."""
    if len(image) < 48:
        return None
    header = struct.unpack_from("<12I", image)
    n, e = header[1], header[2]
    if n > MEMBERS or e > EDGES or len(image) < 48 + 40 * n + 24 * e:
        return None
    members = [struct.unpack_from("<QI", image, 48 + 40 * at) for at in range(n)]
    edges = [struct.unpack_from("<QIIQ", image, 48 + 40 * n + 24 * at) for at in range(e)]
    if any(source >= n or target >= n for _, source, target, _ in edges):
        return None
    data = struct.pack("<6I", 1, n, e, 24, 24 + 16 * n, 24 + 16 * n + 32 * e)
    data += b"".join(struct.pack("<QII", identity, capacity, 0) for identity, capacity in members)
    data += b"".join(struct.pack("<4Q", i, members[s][0], members[t][0], d) for i, s, t, d in edges)
    try:
        plan = read_plan(data)
        check_delays(plan)
    except Refusal:
        return None
    return plan if image_of(plan) == image else None


def witness_of(plan):
    """Edge positions of a shortest zero-delay closed walk from the smallest member that has one."""
    for start in range(len(plan.members)):
        if plan.least[start][start] == 0:
            return zero_walk(plan, start)
    return []


def zero_walk(plan, start):
    waiting, seen = [(start, [])], set()
    while waiting:
        at, walk = waiting.pop(0)
        for route, (_, source, target, d) in enumerate(plan.edges):
            if source == at and d == 0:
                if target == start:
                    return walk + [route]
                if target not in seen:
                    seen.add(target)
                    waiting.append((target, walk + [route]))
    return []


def is_witness(plan, routes):
    """Whether these are the positions of a closed walk of 1 to 32 zero-delay edges."""
    if not 1 <= len(routes) <= 32 or any(route >= len(plan.edges) for route in routes):
        return False
    walk = [plan.edges[route] for route in routes]
    return all(edge[3] == 0 for edge in walk) and all(
        edge[2] == following[1] for edge, following in zip(walk, walk[1:] + walk[:1])
    )


def path_of(plan, source, target):
    """Edge positions of a path that attains the minimum delay, followed back from the target."""
    n = len(plan.members)
    if source >= n or target >= n or plan.least[source][target] is None:
        return []
    path, at, left = [], target, plan.least[source][target]
    while True:
        step = None
        for route, (_, tail, head, d) in enumerate(plan.edges):
            if head == at and tail == source and d == left:
                return [route] + path
            if head == at and plan.least[source][tail] is not None and plan.least[source][tail] + d == left:
                step = route
        path.insert(0, step)
        at, left = plan.edges[step][1], left - plan.edges[step][3]


def is_path(plan, source, target, routes):
    """Whether these are the positions of a path of 1 to 32 edges that attains the minimum delay."""
    if not 1 <= len(routes) <= 32 or any(route >= len(plan.edges) for route in routes):
        return False
    walk = [plan.edges[route] for route in routes]
    return (
        walk[0][1] == source
        and walk[-1][2] == target
        and all(edge[2] == following[1] for edge, following in zip(walk, walk[1:]))
        and sum(edge[3] for edge in walk) == plan.least[source][target]
    )


# Sessions


class Member:
    """One member's record; its tags are in the slab, `held` of them."""

    def __init__(self):
        self.joined = False
        self.published = 0  # 0 unpublished, 1 no event, 2 event
        self.revision = 0
        self.event = NONE
        self.grant_revision = None
        self.granted = NONE
        self.bound = NONE
        self.completed = NONE
        self.asked = None  # revision of the idle request
        self.idle = None
        self.stopped = False
        self.held = 0

    def copy(self):
        other = Member()
        other.__dict__.update(self.__dict__)
        return other

    def words(self):
        def number(value):
            return (0, 0) if value is None else (1, value)

        return (
            int(self.joined), self.published, self.revision, *self.event, *number(self.grant_revision),
            *self.granted, *self.bound, *self.completed, *number(self.asked), *number(self.idle),
            int(self.stopped), self.held,
        )  # fmt: skip


BLANK = Member().words()


class State:
    def __init__(self):
        self.count = self.identity = self.cause = self.code = 0
        self.members = [Member() for _ in range(MEMBERS)]

    def finished(self):
        return self.cause != 0 or all(member.stopped for member in self.members[: self.count])


class Session:
    """One call's view: the plan, the state and the slab, changed only by accepted calls."""

    def __init__(self, plan, state, slab):
        self.plan, self.state, self.slab = plan, state, slab
        self.n = len(plan.members)
        self.members = state.members
        self.out = []

    def tags(self, at):
        start = STRETCH * at
        words = self.slab[start : start + 2 * self.members[at].held]
        return [(1, offset, micro) for offset, micro in zip(words[::2], words[1::2])]

    def put_tags(self, at, tags):
        words = [word for _, offset, micro in tags for word in (offset, micro)]
        self.slab[STRETCH * at : STRETCH * at + STRETCH] = words + [0] * (STRETCH - len(words))
        self.members[at].held = len(tags)

    def well_formed(self):
        if self.state.count != self.n or any(m.words() != BLANK for m in self.members[self.n :]):
            return False
        return all(self.member_well_formed(at) for at in range(self.n))

    def member_well_formed(self, at):
        member, tags = self.members[at], self.tags(at)
        rest = self.slab[STRETCH * at + 2 * member.held : STRETCH * at + STRETCH]
        granted = NEVER if member.granted == NONE else member.granted
        return (
            member.held <= self.plan.members[at][1]
            and all(one < other for one, other in zip(tags, tags[1:]))
            and all(tag[1] <= L for tag in tags)
            and (member.completed == NONE or all(tag > member.completed for tag in tags))
            and not any(rest)
            and (member.published != 2 or (is_finite(member.event) and member.event[1] <= L))
            and (member.completed == NONE or (is_finite(member.completed) and member.completed[1] <= L))
            and (member.completed == NONE or member.completed <= granted)
            and (not member.stopped or member.idle is not None)
        )

    def send(self, member, kind, number=0, tag=NONE, extra=0):
        self.out.append((member, kind, number, *tag, extra))

    def failed(self, member):
        self.send(member, FAILED, self.state.cause, extra=self.state.code if self.state.cause == 20 else 0)

    def abort(self, code):
        """The owner's abort: a cause that stands stays."""
        if self.state.cause == 0:
            self.state.cause, self.state.code = 20, code
        for at in range(self.n):
            self.failed(at)

    def request(self, words):
        member, kind, number, clas, offset, micro, extra = words
        if self.state.cause != 0:
            self.failed(member)
            return
        try:
            self.step(member, kind, number, (clas, offset, micro), extra)
        except Failure as failure:
            self.state.cause, self.state.code = failure.cause, failure.code
            self.out = []
            for at in range(self.n):
                self.failed(at)

    def phase(self, at):
        if not self.members[at].joined:
            return 0
        if not all(member.joined for member in self.members[: self.n]):
            return 1
        if self.members[at].stopped:
            return 4
        return 3 if self.members[at].idle is not None else 2

    #        not joined, waiting, running, idle, stopped
    TABLE = {
        HELLO: (0, 22, 22, 22, 22),
        PUBLISH: (23, 23, 0, 0, 23),
        COMPLETE: (23, 23, 0, 0, 23),
        PAYLOAD: (23, 23, 0, 0, 23),
        CONFIRM: (23, 23, 0, 0, 23),
        STOP: (23, 23, 32, 0, 23),
    }

    def step(self, asker, kind, number, tag, extra):
        if kind == ABORT:
            raise Failure(20, number)
        if asker >= self.n:
            raise Failure(21)
        first = self.TABLE[kind][self.phase(asker)]
        if first:
            raise Failure(first)
        if kind == HELLO:
            self.hello(asker, number)
            return
        if kind == PUBLISH:
            self.publish(self.members[asker], number, tag)
        elif kind == COMPLETE:
            self.complete(asker, tag)
        elif kind == PAYLOAD:
            self.payload(asker, number, tag, extra)
        elif kind == CONFIRM:
            self.confirm(self.members[asker], number)
        else:
            self.members[asker].stopped = True
            self.send(asker, STOPPED)
        for at in [asker] + self.plan.downstream[asker]:
            self.grant(at)
        self.idle()
        self.bounds()

    def hello(self, asker, identity):
        if identity != self.state.identity:
            raise Failure(22)
        self.members[asker].joined = True
        if all(member.joined for member in self.members[: self.n]):
            for at in range(self.n):
                self.send(at, STARTED)

    def publish(self, member, revision, event):
        published = 1 if event == NONE else 2
        if event != NONE and not is_finite(event):
            raise Failure(24)
        if member.published and revision < member.revision:
            raise Failure(24)
        if member.published and revision == member.revision and event != member.event:
            raise Failure(24)
        if event != NONE and member.completed != NONE and event <= member.completed:
            raise Failure(24)
        if event != NONE and member.idle is not None:
            raise Failure(24)
        if (member.published, member.revision, member.event) != (published, revision, event):
            member.asked = None
        member.published, member.revision, member.event = published, revision, event

    def complete(self, asker, tag):
        member = self.members[asker]
        if not is_finite(tag) or member.granted == NONE or tag > member.granted:
            raise Failure(25)
        if member.completed != NONE and tag < member.completed:
            raise Failure(25)
        member.completed = tag
        self.put_tags(asker, [held for held in self.tags(asker) if held > tag])

    def payload(self, asker, route, tag, handle):
        if route >= len(self.plan.edges):
            raise Failure(26)
        _, source, target, d = self.plan.edges[route]
        if source != asker:
            raise Failure(27)
        member = self.members[asker]
        done, granted = member.completed, member.granted
        if (
            not is_finite(tag)
            or member.idle is not None
            or tag < delay(ZERO if done == NONE else done, d)
            or (d == 0 and tag == done)
            or (d > 0 and tag[2] != 0)
            or granted == NONE
            or (done != NONE and done >= granted)
            or tag > delay(granted, d)
        ):
            raise Failure(28)
        other = self.members[target]
        if other.idle is not None or other.stopped or (other.completed != NONE and other.completed >= tag):
            raise Failure(29)
        held = self.tags(target)
        if tag not in held:
            if len(held) >= self.plan.members[target][1]:
                raise Failure(30)
            self.put_tags(target, sorted(held + [tag]))
        self.send(target, PAID, route, tag, handle)

    def confirm(self, member, revision):
        if member.published != 1 or member.revision != revision:
            raise Failure(31)
        member.asked = revision

    def earliest(self, at):
        member = self.members[at]
        published = (NEVER, FOREVER, member.event)[member.published]
        return min([published] + self.tags(at)[:1])

    def horizon(self, at):
        arrivals = [delay(self.earliest(source), d) for source, d in self.plan.incoming[at]]
        done = []
        for source, d in self.plan.feeding[at]:
            completed = self.members[source].completed
            reached = delay(NEVER if completed == NONE else completed, d)
            done.append(predecessor(reached) if d > 0 else reached)
        granted = self.members[at].granted
        return max(
            predecessor(min(arrivals, default=FOREVER)),
            min(done, default=FOREVER),
            NEVER if granted == NONE else granted,
        )

    def grant(self, at):
        member = self.members[at]
        if member.published != 2 or member.idle is not None or member.stopped:
            return
        horizon = self.horizon(at)
        if horizon < member.event:
            return
        new = member.grant_revision != member.revision
        if new or member.granted == NONE or horizon > member.granted:
            member.grant_revision, member.granted = member.revision, horizon
            self.send(at, GRANT, member.revision, horizon)

    def idle(self):
        members = self.members[: self.n]
        if not all(m.published == 1 and m.asked == m.revision and m.held == 0 for m in members):
            return
        for at, member in enumerate(members):
            if not member.stopped and member.idle != member.revision:
                member.idle = member.revision
                self.send(at, IDLE, member.revision)

    def bounds(self):
        for at, member in enumerate(self.members[: self.n]):
            if member.published == 0 or member.idle is not None or member.stopped:
                continue
            reaches = self.plan.least[at]
            bound = min((subtract(self.earliest(to), reaches[to]) for to in self.plan.downstream[at]), default=FOREVER)
            last = NEVER if member.bound == NONE else member.bound
            if bound < last or (bound > last and member.published == 2 and member.event <= bound):
                member.bound = bound
                self.send(at, SUPPRESS, tag=bound)


def check_request(words):
    """Refusals 16 and 17."""
    if len(words) != 7:
        raise Refusal(16)
    _, kind, number, clas, offset, micro, extra = words
    if not 1 <= kind <= 7 or clas > 3 or (clas != 1 and (offset, micro) != (0, 0)):
        raise Refusal(16)
    if kind in (COMPLETE, STOP) and number != 0:
        raise Refusal(16)
    if kind in (COMPLETE, PAYLOAD) and clas == 3:
        raise Refusal(16)
    if kind in (HELLO, CONFIRM, STOP, ABORT) and clas != 3:
        raise Refusal(16)
    if kind != PAYLOAD and extra != 0:
        raise Refusal(16)
    if clas == 1 and offset > L:
        raise Refusal(17)


# The script


def read_number(word, most=LARGEST):
    digits = word.lstrip("0") or "0"
    if not word or not word.isascii() or not word.isdigit() or len(digits) > 20 or int(digits) > most:
        raise Unreadable
    return int(digits)


def read_bytes(word):
    if not word or len(word) % 2 or any(c not in "0123456789abcdef" for c in word):
        raise Unreadable
    return bytes.fromhex(word)


def read_tag(words):
    tag = tuple(words)
    if tag[0] > 3 or (tag[0] != 1 and tag[1:] != (0, 0)):
        raise Unreadable
    return tag


def read_optional(words):
    if words[0] > 1 or (words[0] == 0 and words[1] != 0):
        raise Unreadable
    return words[1] if words[0] else None


class Machine:
    """What the script program holds between lines."""

    def __init__(self):
        self.image, self.plan = b"", None
        self.slab, self.lent, self.room = [0] * SLAB, None, None
        self.state = State()
        self.line = 0
        self.commands = {
            name: getattr(self, "do_" + name)
            for name in "plan image witness check path slab room open request abort dump state member word".split()
        }

    def feed(self, line):
        """Answers to one line, without its newline."""
        self.line += 1
        if not line or line.startswith("#"):
            if len(line) <= LINE:
                return []
        try:
            if len(line) > LINE:
                raise Unreadable
            name, *words = line.split(" ")
            if name not in self.commands or "" in words:
                raise Unreadable
            return self.commands[name](words)
        except Unreadable:
            return [f"error {self.line}"]
        except Refusal as refusal:
            return ["refused %d %d %d %d" % refusal.words]

    def use(self, image):
        self.image, self.plan = image, recognise(image)

    def do_plan(self, words):
        if not 1 <= len(words) <= 2:
            raise Unreadable
        room = read_number(words[1]) if len(words) == 2 else IMAGE
        image = compile_plan(read_bytes(words[0]), room)
        self.use(image)
        return [f"compiled {len(image)} {image.hex()}"]

    def do_image(self, words):
        if len(words) != 1:
            raise Unreadable
        self.use(read_bytes(words[0]))
        return [f"image {len(self.image)}"]

    def do_witness(self, words):
        if len(words) != 1:
            raise Unreadable
        return [listed("witness", witness_of(read_plan(read_bytes(words[0]))))]

    def do_check(self, words):
        if len(words) < 2:
            raise Unreadable
        data, count = read_bytes(words[0]), read_number(words[1])
        routes = [read_number(word) for word in words[2:]]
        if count != len(routes):
            raise Unreadable
        try:
            return ["check yes" if is_witness(read_plan(data), routes) else "check no"]
        except Refusal:
            return ["check no"]

    def do_path(self, words):
        if len(words) != 3:
            raise Unreadable
        data, source, target = read_bytes(words[0]), read_number(words[1]), read_number(words[2])
        plan = read_plan(data)
        check_delays(plan)
        return [listed("path", path_of(plan, source, target))]

    def do_slab(self, words):
        if len(words) != 1:
            raise Unreadable
        self.lent = read_number(words[0], SLAB)
        return [f"slab {self.lent}"]

    def do_room(self, words):
        if len(words) != 1:
            raise Unreadable
        self.room = read_number(words[0], ROOM)
        return [f"room {self.room}"]

    def check_plan(self):
        """Refusals 11 to 13; the number of members."""
        if self.plan is None:
            raise Refusal(11)
        delays = [edge[3] for edge in self.plan.edges] + [d for rows in self.plan.incoming for _, d in rows]
        if any(d > L for d in delays):
            raise Refusal(12)
        n = len(self.plan.members)
        if self.lent is not None and self.lent < STRETCH * n:
            raise Refusal(13)
        return n

    def do_open(self, words):
        if len(words) != 1:
            raise Unreadable
        identity = read_number(words[0])
        n = self.check_plan()
        self.state = State()
        self.state.count, self.state.identity = n, identity
        self.slab[: STRETCH * n] = [0] * (STRETCH * n)
        return ["opened"]

    def session(self):
        """Refusals 11 to 15, then the session."""
        n = self.check_plan()
        session = Session(self.plan, self.state, self.slab)
        if not session.well_formed():
            raise Refusal(14)
        if self.room is not None and self.room < 7 * (2 * n + 1):
            raise Refusal(15)
        return session

    def answered(self, session):
        lines = ["deliver %d %d %d %d %d %d %d" % words for words in session.out]
        return lines + [f"answered {len(session.out)} {int(self.state.finished())}"]

    def do_request(self, words):
        if len(words) > 16:
            raise Unreadable
        numbers = [read_number(word) for word in words]
        session = self.session()
        check_request(numbers)
        session.request(numbers)
        return self.answered(session)

    def do_abort(self, words):
        if len(words) != 1:
            raise Unreadable
        code = read_number(words[0])
        session = self.session()
        session.abort(code)
        return self.answered(session)

    def do_dump(self, words):
        if words:
            raise Unreadable
        state = self.state
        lines = [f"state {state.count} {state.identity} {state.cause} {state.code}"]
        for at in range(state.count):
            member = state.members[at]
            tags = self.slab[STRETCH * at : STRETCH * at + 2 * member.held]
            lines.append(" ".join(map(str, ("member", at, *member.words(), *tags))))
        return lines

    def do_state(self, words):
        if len(words) != 4:
            raise Unreadable
        count = read_number(words[0], MEMBERS)
        identity, cause, code = map(read_number, words[1:])
        state = self.state
        state.count, state.identity, state.cause, state.code = count, identity, cause, code
        return ["state"]

    def do_member(self, words):
        numbers = [read_number(word) for word in words]
        if len(numbers) < 24 or numbers[0] >= MEMBERS or numbers[23] > TAGS or len(numbers) != 24 + 2 * numbers[23]:
            raise Unreadable
        at, joined, published, revision = numbers[:4]
        member = Member()
        if joined > 1 or published > 2 or numbers[22] > 1 or (published == 0 and revision != 0):
            raise Unreadable
        member.joined, member.published, member.revision = joined == 1, published, revision
        member.event = read_tag(numbers[4:7])
        if (published == 2) != (member.event != NONE):
            raise Unreadable
        member.grant_revision = read_optional(numbers[7:9])
        member.granted = read_tag(numbers[9:12])
        member.bound = read_tag(numbers[12:15])
        member.completed = read_tag(numbers[15:18])
        member.asked = read_optional(numbers[18:20])
        member.idle = read_optional(numbers[20:22])
        member.stopped = numbers[22] == 1
        member.held = numbers[23]
        self.state.members[at] = member
        self.slab[STRETCH * at : STRETCH * at + STRETCH] = numbers[24:] + [0] * (STRETCH - 2 * member.held)
        return ["member"]

    def do_word(self, words):
        if len(words) != 2:
            raise Unreadable
        index, value = read_number(words[0], SLAB - 1), read_number(words[1])
        self.slab[index] = value
        return ["word"]


def listed(name, routes):
    return " ".join(map(str, [name, len(routes), *routes]))


def main():
    machine = Machine()
    for line in sys.stdin.buffer:
        for answer in machine.feed(line.rstrip(b"\n").decode("latin-1")):
            print(answer)


if __name__ == "__main__":
    main()
