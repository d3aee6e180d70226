"""Members of the engine among outsiders: their calls are events of one recording, which `mls replay` plays.

Each member of the engine has a twin, an outsider that makes the same calls from the same seeds. What is handed to others
are the engine's bytes, and each message of the engine has to have the bytes of its twin's.
"""
import json
import re
import subprocess

from .crypto import derive_secret, proposal_ref
from .group import Outsider
from .wire import Add, ByReference, GroupContextExtensions, PublicMessage, Refused, read_message, write_message

REPLY = re.compile(r"(\d+): (.*)")
PRESENT = re.compile(r"member (\d+): leaf (\d+), epoch (\d+), tree (\S+), authenticator (\S+)")
GONE = re.compile(r"member (\d+): gone")
REFUSED = "refused"


class Differs(Exception):
    """An answer of the engine that isn't what it has to be."""


def require(holds, what):
    if not holds:
        raise Differs(what)


def listed(extensions):
    """Extensions as a recording has them."""
    return [{"type": it.kind, "data": it.content.hex()} for it in extensions]


class World:
    """A recording that grows, with the reply that each event has to have, and what the program makes of it."""

    def __init__(self, program):
        self.program, self.events, self.replies = program, [], []
        self.candidates = self.members = self.messages = 0

    def add(self, op, reply, **keys):
        """Records a call. The reply `refused` stands for a refusal with any number."""
        event = {"op": op, **{name: it.hex() if isinstance(it, bytes) else it for name, it in keys.items()}}
        self.events.append(event if reply == REFUSED else {**event, "expect": reply})
        self.replies.append(reply)

    def replay(self, *options):
        """What the program prints of all events."""
        recording = json.dumps({"version": 1, "suite": "0001", "events": self.events})
        words = [self.program, "replay", "--suite", "0001", *options, "-"]
        ran = subprocess.run(words, input=recording.encode(), stdout=subprocess.PIPE, stderr=subprocess.PIPE)
        text = ran.stdout.decode()
        require(ran.returncode == 0, f"mls ends with status {ran.returncode}: {(text + ran.stderr.decode())[-300:]}")
        return text.splitlines()

    def number_of_message(self):
        self.messages += 1
        return self.messages - 1

    def message(self, number):
        """The bytes of message N."""
        lines = self.replay("--message", str(number))
        require(len(lines) == 1, "a message isn't one line")
        return bytes.fromhex(lines[0])

    def check(self, seated):
        """All replies are as they have to be, and each member's last line says what its twin holds."""
        lines = self.replay()
        for event, (line, wanted) in enumerate(zip(lines, self.replies)):
            found = REPLY.fullmatch(line)
            require(found and int(found[1]) == event, f"a line {line}")
            holds = found[2].startswith("refused ") if wanted == REFUSED else found[2] == wanted
            require(holds, f"event {event} answers {found[2]}, not {wanted}")
        present = {}
        for line in lines[len(self.replies) :]:
            found = PRESENT.fullmatch(line)
            require(found or GONE.fullmatch(line), f"a line {line}")
            if found:
                present[int(found[1])] = (int(found[2]), int(found[3]), found[4], found[5])
        require(present.keys() == {it.number for it in seated}, "other members are present")
        for it in seated:
            state = it.state
            own = (state.leaf, state.context.epoch, state.context.tree_hash.hex(), it.secrets()["epoch_authenticator"].hex())
            require(present[it.number] == own, f"member {it.number} stands elsewhere")


class EngineMember(Outsider):
    """A client of the engine, with its twin. `number` is the member's number in the world."""

    def __init__(self, world, identity, seed):
        self.world, self.number = world, None
        self.references = {}
        super().__init__(identity, seed)

    def renew(self, seed):
        """Becomes a candidate of the world, whose keys are all new."""
        self.signature_private = derive_secret(seed, b"seed sign")
        super().renew(seed)
        self.candidate, self.message = self.world.candidates, self.world.number_of_message()
        self.world.candidates += 1
        reply = f"candidate {self.candidate}, message {self.message}"
        self.world.add("candidate", reply, identity=self.identity, seed=seed)

    def engine_bytes(self, number, own):
        """The engine's message, which has to be the twin's."""
        found = self.world.message(number)
        require(found == own, f"message {number} isn't its twin's")
        return found

    def key_package_message(self):
        return self.engine_bytes(self.message, super().key_package_message())

    def take_seat(self):
        self.number = self.world.members
        self.world.members += 1

    # ---- calls

    def create(self, group_id, epoch_secret):
        super().create(group_id, epoch_secret)
        self.take_seat()
        self.world.add("create", f"member {self.number}", candidate=self.candidate, group=group_id, seed=epoch_secret)

    def join(self, message, tree_bytes=None):
        try:
            super().join(message, tree_bytes)
        except Refused:
            self.world.add("join", REFUSED, candidate=self.candidate, bytes=message)
            raise
        self.take_seat()
        reply = f"member {self.number} at epoch {self.state.context.epoch}"
        self.world.add("join", reply, candidate=self.candidate, bytes=message)

    def proposed(self, own, op, **keys):
        number = self.world.number_of_message()
        self.world.add(op, f"message {number}", member=self.number, **keys)
        return self.engine_bytes(number, own)

    def propose(self, proposal, private=None):
        own = super().propose(proposal, private)
        if private is not None:
            return own
        if isinstance(proposal, Add):
            return self.proposed(own, "propose_add", key_package=write_message(proposal.key_package))
        if isinstance(proposal, GroupContextExtensions):
            return self.proposed(own, "propose_extensions", extensions=listed(proposal.extensions))
        return self.proposed(own, "propose_remove", leaf=proposal.removed)

    def propose_update(self, seed):
        return self.proposed(super().propose_update(seed), "propose_update", seed=seed)

    def item(self, item):
        """An item of a commit as a recording has it."""
        if isinstance(item, ByReference):
            return {"ref": self.references[item.reference].hex()}
        if isinstance(item.proposal, Add):
            return {"add": write_message(item.proposal.key_package).hex()}
        if isinstance(item.proposal, GroupContextExtensions):
            return {"extensions": listed(item.proposal.extensions)}
        return {"remove": item.proposal.removed}

    def commit(self, items, path, seed, authenticated_data=b""):
        own_commit, own_welcome = super().commit(items, path, seed, authenticated_data)
        commit = self.world.number_of_message()
        welcome = self.world.number_of_message() if own_welcome else None
        reply = f"message {commit}" if welcome is None else f"message {commit}, welcome {welcome}"
        listed = [self.item(it) for it in items]
        self.world.add("commit", reply, member=self.number, items=listed, path=path, seed=seed)
        made = self.engine_bytes(commit, own_commit)
        return made, None if welcome is None else self.engine_bytes(welcome, own_welcome)

    def drop_pending(self):
        super().drop_pending()
        self.world.add("drop_pending", "dropped", member=self.number)

    def process(self, message):
        try:
            answer = super().process(message)
        except Refused:
            self.world.add("deliver", REFUSED, member=self.number, bytes=message)
            raise
        if answer in ("proposed", "known"):
            self.references[proposal_ref(read_message(message, PublicMessage))] = message
        reply = f"advanced to {self.state.context.epoch}" if answer == "advanced" else answer
        self.world.add("deliver", reply, member=self.number, bytes=message)
        return answer
