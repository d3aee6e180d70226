"""Messaging Layer Security (RFC 9420) under cipher suite 0x0001, over the shared library that ./test or
tools/build-library leaves.

    python3 examples/python/mls.py         the life of a group of two

The environment's MLS_LIBRARY may name another library. A call that the library refuses raises Refused, whose `number`
docs/REFUSALS.md explains, or MemoryError where that would be 1; the member or candidate is then as it was. A number that
isn't from 0 to 2^64 - 1 raises OverflowError. A seed is 32 random bytes, used once. Calls hold the interpreter's lock, so
no two run at once.
"""
import ctypes
import os
import weakref

TOP = os.path.dirname(os.path.dirname(os.path.dirname(os.path.realpath(__file__))))
LIBRARY = f"{TOP}/crates/mls_c/out/libmls.so"
EFFECTS = {1: "proposed", 2: "known", 3: "advanced", 4: "removed"}
# What a call takes as it is: numbers, handles, buffers and places to write to.
PLAIN = (ctypes.c_uint64, ctypes.c_size_t, ctypes.c_void_p, ctypes.Array, type(ctypes.byref(ctypes.c_uint64())))


def uint64(value):
    """A number as a call takes it. ctypes alone would take 2^64 for 0, and -1 for 2^64 - 1."""
    if not 0 <= value < 1 << 64:
        raise OverflowError(f"{value} isn't a number from 0 to 2^64 - 1")
    return ctypes.c_uint64(value)


class Refused(Exception):
    """A call was refused."""

    def __init__(self, number):
        super().__init__(f"refused with {number}")
        self.number = number

    @property
    def name(self):
        return library.bytes("refusal_name", uint64(self.number)).decode()


class Library:
    """The calls of the shared library, which raise what is refused."""

    def __init__(self, path):
        self.library = ctypes.PyDLL(path)

    def call(self, name, *words):
        """A call, whose words are numbers, bytes, handles and places to write to."""
        passed = []
        for word in words:
            if isinstance(word, (bytes, bytearray, memoryview)):
                passed += [bytes(word), ctypes.c_size_t(len(bytes(word)))]
            elif isinstance(word, PLAIN):
                passed.append(word)
            else:
                raise TypeError(f"mls_{name} takes bytes, and no {type(word).__name__}")
        function = getattr(self.library, f"mls_{name}")
        function.restype = ctypes.c_uint32
        number = function(*passed)
        if number:
            raise MemoryError if number == 1 else Refused(number)

    def number(self, name, *words):
        """The number that a call makes."""
        made = ctypes.c_uint64()
        self.call(name, *words, ctypes.byref(made))
        return made.value

    def handle(self, name, *words):
        """The handle that a call makes."""
        made = ctypes.c_void_p()
        self.call(name, *words, ctypes.byref(made))
        return made

    def bytes(self, name, *words):
        """The bytes that a call makes."""
        return Bytes(self.handle(name, *words)).copy()

    def two(self, name, *words, after=()):
        """The bytes that a call makes, and others or None."""
        first, second = Bytes(ctypes.c_void_p()), Bytes(ctypes.c_void_p())
        self.call(name, *words, ctypes.byref(first.handle), ctypes.byref(second.handle), *after)
        return first.copy(), second.copy()

    def free(self, handle):
        """Frees a handle, unless it is null."""
        if handle.value:
            self.call("free", handle)


library = Library(os.environ.get("MLS_LIBRARY", LIBRARY))


class Held:
    """What a handle holds. The handle is freed with it."""

    def __init__(self, handle):
        self.handle = handle
        weakref.finalize(self, library.free, handle)


class Bytes(Held):
    """Bytes that a call made."""

    def copy(self):
        """A copy of them, or None where the handle is null."""
        if not self.handle.value:
            return None
        buffer = (ctypes.c_uint8 * library.number("bytes_length", self.handle))()
        library.call("bytes_copy", self.handle, buffer, ctypes.c_size_t(len(buffer)))
        return bytes(buffer)


class Candidate(Held):
    """A candidate for membership."""

    @classmethod
    def new(cls, identity, seed):
        """A candidate of an identity and a seed."""
        return cls(library.handle("candidate_new", identity, seed))

    @classmethod
    def load(cls, saved):
        """The candidate that was saved so."""
        return cls(library.handle("candidate_load", saved))

    def save(self):
        """The bytes that it is saved as, which hold its secrets."""
        return library.bytes("candidate_save", self.handle)

    def key_package(self):
        """The message of its KeyPackage, for those who are to add it."""
        return library.bytes("candidate_key_package", self.handle)


def vector(content):
    """The spelling of bytes behind their length (RFC 9420, 2.1.2)."""
    for size, mark in ((1, 0x00), (2, 0x40), (4, 0x80)):
        if len(content) < 1 << 8 * size - 2:
            return (len(content) | mark << 8 * (size - 1)).to_bytes(size, "big") + content
    raise ValueError("no vector has 2^30 bytes")


def place_of(message):
    """Where a message says that it belongs, which nothing checked: what takes it, its group, and its epoch."""
    group_id, epoch = Bytes(ctypes.c_void_p()), ctypes.c_uint64()
    library.call("message_place", message, ctypes.byref(group_id.handle), ctypes.byref(epoch))
    return Conversation if message[3] == 2 else Member, group_id.copy(), epoch.value


def identity_of(key_package):
    """The identity and the signature key that the message of a KeyPackage offers. Nothing of it was checked."""
    return library.two("key_package_identity", key_package)


def removal(leaf):
    """A removal of a leaf in full, as a commit lists it (RFC 9420, 12.4)."""
    return b"\x01\x00\x03" + leaf.to_bytes(4, "big")


def kept(reference):
    """A kept proposal by its reference, as a commit lists it (RFC 9420, 12.4)."""
    return b"\x02" + vector(reference)


def addition(key_package):
    """An addition of the client of a KeyPackage's message in full, as a commit lists it (RFC 9420, 12.4)."""
    return b"\x01\x00\x01" + key_package[4:]


class Member(Held):
    """A member of a group."""

    @classmethod
    def create(cls, candidate, group_id, seed):
        """The group of a candidate alone."""
        return cls(library.handle("member_create", candidate.handle, group_id, seed))

    @classmethod
    def join(cls, candidate, welcome):
        """The member that a Welcome makes of a candidate."""
        return cls(library.handle("member_join", candidate.handle, welcome))

    @classmethod
    def load(cls, saved):
        """The member that was saved so."""
        return cls(library.handle("member_load", saved))

    def save(self):
        """The bytes that it is saved as, which hold its secrets."""
        return library.bytes("member_save", self.handle)

    @property
    def epoch(self):
        return library.number("member_epoch", self.handle)

    @property
    def group_id(self):
        return library.bytes("member_group_id", self.handle)

    def members(self):
        """The members of its group: leaf, identity and signature key of each."""
        for leaf in range(library.number("member_leaf_count", self.handle)):
            try:
                yield (leaf, *library.two("member_at", self.handle, uint64(leaf)))
            except Refused as refused:
                if refused.number != 22:
                    raise

    @property
    def extensions(self):
        """The extensions that its group carries, as propose_extensions takes them."""
        return library.bytes("member_extensions", self.handle)

    def export(self, label, context, length):
        """A secret of its epoch, under a label and a context."""
        return library.bytes("member_export", self.handle, label.encode(), context, uint64(length))

    def conversation(self):
        """What it seals and opens application messages of its epoch with. Only one an epoch may seal, so it is kept; that
        of a member that was loaded, and may have sealed in its epoch before, is restored, or the member commits first."""
        return Conversation(library.handle("conversation_new", self.handle))

    def process(self, message):
        """Takes a message of the group, and says what it did: proposed, known, advanced or removed."""
        return EFFECTS[library.number("member_process", self.handle, message)]

    def inspect(self, message):
        """What process would say of a message, and the member as it would be then. It stays itself."""
        effect, after = ctypes.c_uint64(), ctypes.c_void_p()
        library.call("member_inspect", self.handle, message, ctypes.byref(effect), ctypes.byref(after))
        return EFFECTS[effect.value], Member(after)

    def reference_of(self, message):
        """The reference of the proposal that it keeps with a message, or None."""
        return library.bytes("member_reference", self.handle, message)

    def missing_proposals(self, commit, most=1000):
        """The references of the proposals that a commit names and it lacks: until it has taken these it refuses the commit,
        unless this is its own. So many at most are asked for, since the library reads the whole commit again for each: of a
        commit of very many, which anybody may send, all would take a time that grows with their square."""
        missing = []
        while len(missing) < most:
            reference = library.bytes("member_missing_proposal", self.handle, commit, uint64(len(missing)))
            if reference is None:
                break
            missing.append(reference)
        return missing

    def forget_proposal(self, reference):
        """Forgets the proposal that it keeps under a reference, and answers whether there was one."""
        return bool(library.number("member_forget_proposal", self.handle, reference))

    def propose_add(self, key_package):
        """A message that proposes to add the client of a KeyPackage's message."""
        return library.bytes("member_propose_add", self.handle, key_package)

    def propose_update(self, seed):
        """A message that proposes a new key for its leaf."""
        return library.bytes("member_propose_update", self.handle, seed)

    def propose_remove(self, leaf):
        """A message that proposes to remove a leaf."""
        return library.bytes("member_propose_remove", self.handle, uint64(leaf))

    def propose_extensions(self, extensions):
        """A message that proposes that the group carry the extensions that bytes spell, with their length."""
        return library.bytes("member_propose_extensions", self.handle, extensions)

    @property
    def pending_commit(self):
        """The message of its pending commit, or None."""
        return library.bytes("member_pending_commit", self.handle)

    def drop_pending(self):
        """Forgets its pending commit, which it can't follow then, and answers whether there was one."""
        return bool(library.number("member_drop_pending", self.handle))

    @property
    def leaf_index(self):
        return library.number("member_leaf_index", self.handle)

    def commit(self, proposals, seed, path=True):
        """The messages of a commit of a list of proposals: the commit, and the Welcome or None."""
        listed = vector(b"".join(proposals))
        return library.two("member_commit", self.handle, listed, uint64(path), seed)

    def commit_kept(self, seed, path=True):
        """The messages of a commit of what it keeps: the commit, and the Welcome or None."""
        return library.two("member_commit_kept", self.handle, uint64(path), seed)


class Conversation(Held):
    """What one member seals and opens the application messages of one epoch with."""

    def seal(self, data, seed, authenticated=b"", padding=0):
        """A sealed message of application data, and of authenticated data that isn't encrypted."""
        return library.bytes("conversation_seal", self.handle, data, authenticated, uint64(padding), seed)

    def open(self, message):
        """The data and the authenticated data of a message, and its sender's leaf."""
        sender = ctypes.c_uint64()
        return (*library.two("conversation_open", self.handle, message, after=[ctypes.byref(sender)]), sender.value)

    def member_at(self, leaf):
        """The identity and the signature key of the member at a leaf, in this epoch."""
        return library.two("conversation_member_at", self.handle, uint64(leaf))

    def save(self):
        """The bytes that it is saved as, which hold its secrets. What it sealed is stored with them, and sent only then: by
        bytes of an older save keys would be used twice."""
        return library.bytes("conversation_save", self.handle)

    def restore(self, saved):
        """Goes on as the conversation of its member and epoch that was saved so. It has used no key itself."""
        library.call("conversation_restore", self.handle, saved)


def say(speaker, hearer, words, seed):
    """One member says something to the other, who looks up who it was."""
    heard, _, sender = hearer.open(speaker.seal(words, seed, padding=8))
    name, _ = hearer.member_at(sender)
    print(f"{name.decode()} says {heard.decode()}")


def main():
    # Seeds are random in earnest; here they are fixed.
    hers, his = Candidate.new(b"alice", bytes([1] * 32)), Candidate.new(b"bob", bytes([2] * 32))
    alice = Member.create(hers, b"group", bytes([3] * 32))
    print(f"alice adds {identity_of(his.key_package())[0].decode()}")
    alice.propose_add(his.key_package())
    commit, welcome = alice.commit_kept(bytes([4] * 32))
    alice.process(commit)
    bob = Member.join(his, welcome)
    print(f"bob joins in epoch {bob.epoch}")
    spoken, heard = alice.conversation(), bob.conversation()
    say(spoken, heard, b"hello", bytes([8] * 32))
    say(heard, spoken, b"hi", bytes([9] * 32))
    alice.process(bob.propose_update(bytes([5] * 32)))
    commit, _ = alice.commit_kept(bytes([6] * 32))
    alice.process(commit)
    bob.process(commit)
    print(f"both are in epoch {alice.epoch}")
    bob = Member.load(bob.save())
    same = alice.export("pair", b"", 16) == bob.export("pair", b"", 16)
    print(f"both export {'one secret' if same else 'two secrets'}")
    print(f"bob is in {bob.group_id.decode()}, epoch {bob.epoch}")
    commit, _ = alice.commit([removal(bob.leaf_index)], bytes([7] * 32))
    alice.process(commit)
    print(f"bob was {bob.process(commit)}")


if __name__ == "__main__":
    main()
