"""Hostile scripts: a crowd of clients with everything in hand at once, while nodes fail, join and copy. For bench/crowd.

A script goes by its seed alone. It keeps in mind who is where and has opened what, as far as that shows without playing a
line; so most of its calls find something, and some find nothing, or meet another.
"""
import random

NODES, CLIENTS, CHECKPOINTS, SHOWS = 8, 64, 16, 16
# How many of the checkpoints go by each of the creation flags.
OPTIONS = [1] * 6 + [2] * 3 + [4] * 3 + [10] * 2 + [12] * 2
IDENTIFIERS = ["'a", "'b", "'c", "'d", "'a", "'b", "'c", "'d", "x00", "x0000000000000001"]
ASYNCHRONOUS = ("openasync", "syncasync")
# How often each call comes, and each line between.
CALLS = dict(write=14, create=6, over=5, delete=1, expire=2, read=5, status=1, iter=2, next=2, enditer=1, open=4, close=1)
CALLS |= dict(unlink=0.1, retain=0.5, sync=5, active=6, openasync=5, syncasync=8, dispatch=4, finalize=0.2)
LINES = dict(step=60, finish=6, call=16, operation=12, fail=0.8, join=2, copying=6, come=10, at=1)
LINES |= dict(pull=2, put=3, propagate=2, busy=1)
UPDATES = ("write", "create", "over", "delete", "expire")


class Client:
    """Where a client is and what it has, as far as the script knows."""

    def __init__(self, node):
        self.node = node
        # By the place of a handle, the number of the name that was opened there.
        self.places = {}
        self.iterations = []
        # How many steps the call takes still, if one may be in hand.
        self.left = 0


class Crowd:
    """A script in the making."""

    def __init__(self, seed):
        self.random = random.Random(f"crowd {seed}")
        self.lines = [f"nodes {NODES}"]
        self.up = set(range(NODES))
        self.clients = {}
        # How many calls each client has begun: at least and at most so many.
        self.counts = {client: [0, 0] for client in range(CLIENTS)}
        self.operations = []
        self.copying = set()
        self.shows = 0
        self.moment = 0
        self.options = self.random.sample(OPTIONS, len(OPTIONS))
        self.attributes = [self.declared(option) for option in self.options]

    def declared(self, option):
        """The attributes of a checkpoint: of one section or of several, with room for all of them or not."""
        sections, size = self.random.choice([1, 2, 4, 6]), self.random.choice([4, 8, 16])
        room = self.random.choice([sections * size, sections * size, size, max(1, sections * size - 3)])
        return f"{option} {room} {self.random.choice(['0', '5', 'end', 'end'])} {sections} {size} 8"

    # ---- the words of calls

    def data(self):
        return "'" + "".join(self.random.choice("abcdef") for _ in range(self.random.choice([1, 1, 2, 3, 4, 9])))

    def section(self, name):
        if self.attributes[name].split(" ")[3] == "1":
            return "x"
        return self.random.choice(IDENTIFIERS)

    def time(self):
        return self.random.choice(["end", "end", "end", str(self.moment + self.random.randrange(1, 9)), str(self.moment)])

    def handle(self, client, options=OPTIONS):
        """A place of the client with a checkpoint of such options, and the number of its name; at times any place."""
        fit = [place for place, name in self.clients[client].places.items() if self.options[name] in options]
        place = self.random.choice(fit or [9])
        return place, self.clients[client].places.get(place, 0)

    def opened(self, client, word, name, flags):
        """The line of an open or of an asynchronous one."""
        place = self.random.randrange(1, 8)
        self.clients[client].places[place] = name
        last = self.random.choice(["end"] * 30 + ["0", "5"]) if word == "open" else ""
        number = f" {self.random.randrange(100)}" if word == "openasync" else ""
        attributes = f" {self.attributes[name]}" if flags & 4 else ""
        return " ".join(f"{word} c{client} h{place}{number} 'k{name} {flags} {last}{attributes}".split())

    def updated(self, client, word):
        """The line of an update."""
        place, name = self.handle(client)
        front, section = f"{word} c{client} h{place}", self.section(name)
        if word == "create":
            return f"{front} {self.random.choice([section, section, 'gen'])} {self.time()} {self.data()}"
        if word == "delete":
            return f"{front} {section}"
        if word == "expire":
            return f"{front} {section} {self.time()}"
        if word == "over":
            return f"{front} {section} {self.data()}"
        elements = self.random.choice([1, 1, 1, 2, 3, 4])
        return front + "".join(f" {self.section(name)} {self.random.choice([0, 0, 1, 3])} {self.data()}" for _ in range(elements))

    def call(self, client):
        """The line of a call of the client."""
        word = self.random.choices(list(CALLS), list(CALLS.values()))[0]
        if word in ("open", "openasync") or not self.clients[client].places:
            word = word if word == "openasync" else "open"
            return self.opened(client, word, self.random.randrange(CHECKPOINTS), self.random.choice([7, 7, 3, 3, 1, 2]))
        if word in UPDATES:
            return self.updated(client, word)
        if word in ("next", "enditer") and self.clients[client].iterations:
            return f"{word} c{client} i{self.random.choice(self.clients[client].iterations)}"
        if word == "unlink":
            return f"unlink c{client} 'k{self.random.randrange(CHECKPOINTS)}"
        if word == "dispatch":
            return f"dispatch c{client} {self.random.choice([1, 2, 2])}"
        if word == "finalize":
            return f"finalize c{client}"
        return self.of_handle(client, word)

    def of_handle(self, client, word):
        """The line of a call that goes through a handle, and is no update."""
        fit = (10, 12) if word == "active" else (2, 4, 10, 12) if word in ("sync", "syncasync") else OPTIONS
        place, name = self.handle(client, fit)
        front = f"{word} c{client} h{place}"
        if word in ("active", "status", "close"):
            return front
        if word == "read":
            return f"{front} {self.section(name)} 0 {self.random.choice([16, 16, 4])}"
        if word in ("iter", "next", "enditer"):
            number = self.random.randrange(3)
            self.clients[client].iterations.append(number)
            return f"iter c{client} i{number} h{place} {self.random.choice([1, 2, 3, 4, 5, 5])} {self.time()}"
        if word == "retain":
            return f"{front} {self.random.choice(['0', '2', 'end'])}"
        return f"{front} {self.random.choice(['end', 'end', '3'])}" if word == "sync" else f"{front} {self.random.randrange(100)}"

    # ---- lines, and what they do to the crowd

    def begin(self, client, line, alone):
        """Begins the call of a client that is live: alone, or played to its end."""
        self.lines.append(f"begin {line}" if alone else line)
        word, it, (least, most) = line.split(" ")[0], self.clients[client], self.counts[client]
        # Where a call may be in hand, a further one may be answered BUSY.
        least, most = least + (it.left == 0), most + 1
        self.counts[client] = [least, most]
        if word in ASYNCHRONOUS:
            self.operations += [f"c{client}.{number}" for number in range(max(least, most - 1), most + 1)]
        elif word == "finalize":
            if not alone and it.left == 0:
                del self.clients[client]
        elif alone:
            it.left = it.left or self.steps(it, line.split(" "))

    def steps(self, it, words):
        """How many steps a call takes, as a rule."""
        if words[0] == "sync":
            return len(self.up)
        if words[0] == "active":
            return 2
        if words[0] not in UPDATES:
            return 1
        option = self.options[it.places.get(int(words[2][1:]), 0)]
        if option == 1:
            return 2 * len(self.up)
        return 1 + len(words) // 3 if option in (4, 12) and words[0] == "write" else 1

    def come(self, client, alone=False):
        """A client comes to a node that is up, and where it is not alone, opens some checkpoints."""
        node = self.random.choice(sorted(self.up) or [0])
        self.clients[client] = Client(node)
        callbacks = self.random.choice(["both", "both", "both", "open", "sync", "none"])
        self.begin(client, f"client c{client} n{node} B.2.2 {callbacks}", alone)
        for name in self.random.sample(range(CHECKPOINTS), 0 if alone else 3):
            self.begin(client, self.opened(client, "open", name, 7), False)

    def finish(self, client):
        self.lines.append(f"finish c{client}")
        self.clients[client].left = 0

    def fail(self, node):
        self.lines.append(f"fail n{node}")
        self.up.discard(node)
        self.copying.discard(node)
        self.clients = {client: it for client, it in self.clients.items() if it.node != node}

    def join(self, node):
        self.lines.append(f"join n{node}")
        self.up.add(node)

    def copy(self):
        """A copying is begun, stepped or played on."""
        if self.copying and self.random.random() < 0.6:
            self.step(f"n{self.random.choice(sorted(self.copying))}")
            return
        node = self.random.randrange(NODES)
        alone = self.random.random() < 0.8
        self.lines.append(f"begin copy n{node}" if alone else f"copy n{node}")
        if alone and node in self.up:
            self.copying.add(node)

    def step(self, who):
        """The call of a client, a node or of that name takes some steps: so many."""
        count = self.random.choice([1, 1, 1, 1, 2, 2, 3, 4, 8])
        self.lines.append(f"step {who} {count}")
        return count

    def step_client(self, client):
        """What the client has in hand goes on; where that may have come to its end, it is finished."""
        self.clients[client].left -= self.step(f"c{client}")
        if self.clients[client].left <= 0:
            self.finish(client)

    def show(self, checkpoint):
        if self.shows < SHOWS:
            self.shows += 1
            self.lines.append(f"show K{checkpoint}")

    def checkpoint(self):
        return f"K{self.random.randrange(1, CHECKPOINTS + 5)}"

    # ---- what happens

    def happens(self):
        """One line of those that come between, or a few."""
        begun = [client for client, it in self.clients.items() if it.left]
        idle = [client for client, it in self.clients.items() if not it.left]
        gone = sorted(set(range(CLIENTS)) - set(self.clients))
        kind = self.random.choices(list(LINES), list(LINES.values()))[0]
        if kind == "step" and begun:
            self.step_client(self.random.choice(begun))
        elif kind == "finish" and begun:
            self.finish(self.random.choice(begun))
        elif kind == "busy" and begun:
            client = self.random.choice(begun)
            self.begin(client, self.call(client), False)
        elif kind == "call" and idle:
            client = self.random.choice(idle)
            self.begin(client, self.call(client), self.random.random() < 0.7)
        elif kind == "operation" and self.operations:
            # Those that were asked for last have most likely yet to end.
            who = self.random.choice(self.operations[-30:])
            if self.random.random() < 0.7:
                self.step(who)
            else:
                self.lines.append(f"finish {who}")
        elif kind == "come" and gone:
            self.come(self.random.choice(gone), self.random.random() < 0.2)
        else:
            self.others(kind)

    def others(self, kind):
        """A line that is no call of a client."""
        if kind == "fail":
            is_up = self.up and self.random.random() < 0.95
            self.fail(self.random.choice(sorted(self.up)) if is_up else self.random.randrange(NODES))
        elif kind == "join":
            self.join(self.random.choice(sorted(set(range(NODES)) - self.up) or [self.random.randrange(NODES)]))
        elif kind == "copying":
            self.copy()
        elif kind == "at":
            self.moment += self.random.choice([0, 1, 1, 2, 4])
            self.lines.append(f"at {self.moment}")
        elif kind in ("pull", "propagate"):
            self.lines.append(f"{kind} {self.checkpoint()}")
        elif kind == "put":
            self.lines.append(f"put {self.checkpoint()} n{self.random.randrange(NODES)}")

    def opening(self):
        """All clients come, and 16 of them make a checkpoint each, all makings in hand at once."""
        for client in range(CLIENTS):
            self.clients[client] = Client(client % NODES)
            callbacks = self.random.choice(["both", "both", "open", "sync"])
            self.begin(client, f"client c{client} n{client % NODES} B.2.2 {callbacks}", False)
        makers = self.random.sample(range(CLIENTS), CHECKPOINTS)
        for name, client in enumerate(makers):
            self.clients[client].places[0] = name
            self.begin(client, f"open c{client} h0 'k{name} 7 end {self.attributes[name]}", True)
        for _ in range(4 * CHECKPOINTS):
            self.step(f"c{self.random.choice(makers)}")
        for client in makers:
            self.finish(client)
        for client in range(CLIENTS):
            for name in self.random.sample(range(CHECKPOINTS), 3):
                self.begin(client, self.opened(client, "open", name, 3), False)
        for name, client in enumerate(makers):
            if self.options[name] in (10, 12):
                self.begin(client, f"active c{client} h0", False)
            for section in IDENTIFIERS[:4] if self.section(name) != "x" else []:
                self.begin(client, f"create c{client} h0 {section} end {self.data()}", False)

    def crowded(self):
        """Every client that is idle begins a call, and every node a copying; asynchronous ones begin beside them."""
        for client in self.random.sample(range(CLIENTS), CLIENTS):
            if client not in self.clients:
                self.come(client)
            for _ in range(3):
                if client in self.clients and not self.clients[client].left:
                    self.begin(client, self.call(client), True)
        for node in sorted(self.up):
            self.lines.append(f"begin copy n{node}")
            self.copying.add(node)

    def at_rest(self):
        """All that is in hand is finished, each node is up and copies, and each checkpoint has one more update."""
        for client in sorted(self.clients):
            self.finish(client)
        for node in range(NODES):
            self.lines.append(f"finish n{node}")
        self.lines += [f"finish {name}" for name in self.operations]
        self.operations = []
        self.copying = set()
        for node in sorted(set(range(NODES)) - self.up):
            self.join(node)
        for client in sorted(set(range(CLIENTS)) - set(self.clients)):
            self.come(client)
        # An update first settles what calls that are gone have left, and a copying as well.
        self.settle()
        self.lines += [f"copy n{node}" for node in range(NODES)]
        self.settle()
        for client in sorted(self.clients):
            self.begin(client, f"dispatch c{client} 2", False)

    def settle(self):
        """An update of each checkpoint that some client has open."""
        for name in range(CHECKPOINTS):
            fit = [(client, place) for client, it in self.clients.items() for place, opened in it.places.items() if opened == name]
            for client, place in self.random.sample(fit, min(2, len(fit))):
                self.begin(client, f"write c{client} h{place} {self.section(name)} 0 {self.data()}", False)

    def script(self):
        """The lines of the script."""
        self.opening()
        for _ in range(self.random.choice([3, 4, 5])):
            self.crowded()
            for _ in range(self.random.choice([150, 300, 600])):
                self.happens()
            self.show(self.random.randrange(1, CHECKPOINTS + 1))
            if self.random.random() < 0.1:
                for node in self.random.sample(sorted(self.up), self.random.randrange(len(self.up) + 1)):
                    self.fail(node)
        self.at_rest()
        for checkpoint in self.random.sample(range(1, CHECKPOINTS + 1), CHECKPOINTS):
            self.show(checkpoint)
        return self.lines


def script(seed):
    """The lines of the script of a seed, which is any text."""
    return Crowd(seed).script()
