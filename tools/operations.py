"""Asynchronous operations of a step log: which steps are theirs, where each ends, and which callback is that of which.

The log says where an open ends. A synchronisation ends by the step behind which no complete node is left, so it is kept
which nodes have a replica of which checkpoint. A close drops the synchronisations over its handle, and the log does not
tell the handle; where the client has several of that checkpoint, the count of a later dispatch tells what was dropped, or
else the callbacks of that client have no name from there on.
"""
import collections
import dataclasses

ENDS_OPEN = ("open", "finish", "undo", "look")


@dataclasses.dataclass
class Operation:
    """An asynchronous operation: its call, whether it opens or synchronises, and what it has come to."""

    call: str
    kind: str
    checkpoint: str | None = None
    served: set = dataclasses.field(default_factory=set)
    # Whether a close may have dropped it.
    doubtful: bool = False


@dataclasses.dataclass
class Checkpoint:
    """What the log tells of a checkpoint: where it has a replica, and which nodes have joined since it was begun.

    It was made `alone` where one node was reserved. Where others were up then, it is collocated.
    """

    reserved: set = dataclasses.field(default_factory=set)
    complete: set = dataclasses.field(default_factory=set)
    made: bool = False
    alone: bool = False
    collocated: bool = False
    joined: set = dataclasses.field(default_factory=set)


class Operations:
    """What is known behind the lines that were taken."""

    def __init__(self):
        self.place, self.up = {}, set()
        self.checkpoints = collections.defaultdict(Checkpoint)
        self.handles = collections.Counter()
        self.operations = {}
        # For each client the operations that have ended, and whose callback is still to be given; None where unknown.
        self.ended = collections.defaultdict(list)
        self.giving = []

    def take(self, kind, parts):
        """Takes a line, and returns the call of its asynchronous operation, if it has one, and whether that ends."""
        if kind == "step":
            return self.take_step(**parts)
        if kind == "callback":
            given = self.giving.pop(0) if self.giving else None
            return given and given.call, False
        if kind == "result":
            self.take_result(**parts)
        elif kind == "word" and parts["result"].startswith("OK"):
            (self.fail if parts["operation"] == "fail" else self.join)(parts["who"])
        return None, False

    def take_result(self, call, client, operation, result, details, **_):
        self.giving = []
        if operation in ("openasync", "syncasync") and result == "OK":
            self.operations[call] = Operation(call, operation.removesuffix("async"))
        if operation == "dispatch" and result == "OK":
            self.dispatch(client, *map(int, details.split()))

    def dispatch(self, client, given, left):
        """Settles by these counts which operations have ended, and lets so many callbacks be given."""
        ended = self.ended[client]
        if ended is not None and len(ended) != given + left:
            ended = [each for each in ended if not each.doubtful]
        if ended is None or len(ended) != given + left:
            self.ended[client] = None
            return
        for each in ended:
            each.doubtful = False
        self.giving, self.ended[client] = ended[:given], ended[given:]

    def take_step(self, call, client, verb, checkpoint, node, reply):
        if verb == "look" and reply == "done":
            self.doubt(client)
        after = getattr(self, f"after_{verb}", None)
        if after and reply == "ok":
            after(client, checkpoint, node)
        operation = self.operations.get(call)
        if not operation:
            return None, False
        ends = (ends_open if operation.kind == "open" else self.ends_sync)(operation, verb, checkpoint, node, reply)
        if ends:
            del self.operations[call]
            if self.ended[client] is not None:
                self.ended[client].append(operation)
        return call, ends

    def ends_sync(self, operation, verb, checkpoint, node, reply):
        """Whether this is the last step: a refusal, or the service of the last node with a replica."""
        if verb == "look" or reply.startswith("held"):
            return True
        operation.checkpoint = checkpoint
        operation.served.add(node)
        known = self.checkpoints[checkpoint]
        return known.made and known.complete <= operation.served

    def after_enter(self, client, _, node):
        self.drop(client)
        self.place[client] = node
        self.up.add(node)

    def after_leave(self, client, *_):
        self.drop(client)

    def after_reserve(self, _, checkpoint, node):
        self.checkpoints[checkpoint].reserved.add(node)
        self.up.add(node)

    def after_finish(self, client, checkpoint, _):
        known = self.checkpoints[checkpoint]
        known.complete, known.made = set(known.reserved), True
        known.alone = len(known.reserved) == 1
        known.collocated = known.alone and self.up > known.reserved
        self.handles[client, checkpoint] += 1

    def after_open(self, client, checkpoint, _):
        """An open of a collocated checkpoint makes it complete at its client's node."""
        known, node = self.checkpoints[checkpoint], self.place.get(client)
        if known.alone and node and node not in known.complete | known.joined:
            known.collocated = True
        if known.collocated and node:
            known.complete.add(node)
        self.handles[client, checkpoint] += 1

    def after_activate(self, _, checkpoint, __):
        self.checkpoints[checkpoint].collocated = True

    def after_close(self, client, checkpoint, _):
        """The last handle of a checkpoint takes its synchronisations along, and another one perhaps."""
        self.handles[client, checkpoint] -= 1
        if self.handles[client, checkpoint] <= 0 and self.ended[client]:
            self.ended[client] = [each for each in self.ended[client] if each.checkpoint != checkpoint]
        self.doubt(client, checkpoint)

    def doubt(self, client, checkpoint=None):
        """Any synchronisation of the client over that checkpoint, or over any, may have been dropped."""
        for each in self.ended[client] or []:
            if each.kind == "sync" and None in (checkpoint, each.checkpoint) or each.checkpoint == checkpoint:
                each.doubtful = True

    def drop(self, client):
        """All of the client's goes with it."""
        self.ended[client] = []
        self.place.pop(client, None)
        self.operations = {call: each for call, each in self.operations.items() if not call.startswith(f"{client}.")}
        self.handles = collections.Counter({key: count for key, count in self.handles.items() if key[0] != client})

    def fail(self, node):
        for client in [client for client, place in self.place.items() if place == node]:
            self.drop(client)
        self.up.discard(node)
        for known in self.checkpoints.values():
            known.reserved.discard(node)
            known.complete.discard(node)

    def join(self, node):
        self.up.add(node)
        for known in self.checkpoints.values():
            known.joined.add(node)


def ends_open(_, verb, __, ___, reply):
    """Whether this is the last step of an open."""
    return verb in ENDS_OPEN or (verb == "create" and reply == "memory")
