"""Application messages (RFC 9420, sections 6.3 and 9): the secret tree, sealing, and opening with the number that
docs/REFUSALS.md has for each refusal."""
from dataclasses import dataclass

from .crypto import (KEY_LENGTH, NONCE_LENGTH, aead_open, aead_seal, expand_with_label, sign_with_label,
                     verify_with_label)
from .wire import (APPLICATION, MLS10, PRIVATE_MESSAGE, FramedContent, Refused, header, opaque, uint)

WINDOW = 1000


class Fault(Exception):
    """A refusal, by its number."""

    def __init__(self, number):
        super().__init__(f"refused with {number}")
        self.number = number


# ---- the secret tree (sections 9 and 9.1)


def derive_tree_secret(secret, label, generation, length):
    return expand_with_label(secret, label, uint(4, generation), length)


def leaf_secret(encryption_secret, leaves, leaf):
    """The secret of a leaf's node, in a tree of a power of two of leaves."""
    secret, first, size = encryption_secret, 0, leaves
    while size > 1:
        size //= 2
        is_right = leaf >= first + size
        secret = expand_with_label(secret, b"tree", b"right" if is_right else b"left", 32)
        first += size if is_right else 0
    return secret


class Ratchet:
    """The application keys of a leaf."""

    def __init__(self, encryption_secret, leaves, leaf):
        leaf_node = leaf_secret(encryption_secret, leaves, leaf)
        self.next, self.secret = 0, expand_with_label(leaf_node, b"application", b"", 32)
        self.skipped = {}

    def step(self):
        key = derive_tree_secret(self.secret, b"key", self.next, KEY_LENGTH)
        nonce = derive_tree_secret(self.secret, b"nonce", self.next, NONCE_LENGTH)
        self.skipped[self.next] = key, nonce
        self.secret = derive_tree_secret(self.secret, b"secret", self.next, 32)
        self.next += 1

    def key(self, generation):
        """The key and the nonce of a generation, which stay until they are used."""
        if generation > self.next + WINDOW:
            raise Fault(115)
        while self.next <= generation:
            self.step()
        if generation not in self.skipped:
            raise Fault(116)
        return self.skipped[generation]

    def use(self, generation):
        del self.skipped[generation]
        self.skipped = {it: key for it, key in self.skipped.items() if it + WINDOW >= self.next - 1}


# ---- formats (sections 6.3, 6.3.1, 6.3.2)


class Bytes:
    """What is left of bytes that are read, each fault by its number."""

    def __init__(self, content):
        self.content = content

    def take(self, count):
        if count > len(self.content):
            raise Fault(2)
        taken, self.content = self.content[:count], self.content[count:]
        return taken

    def uint(self, size, *allowed):
        value = int.from_bytes(self.take(size), "big")
        if allowed and value not in allowed:
            raise Fault(7)
        return value

    def opaque(self):
        first = self.uint(1)
        if first >> 6 == 3:
            raise Fault(4)
        size = 1 << (first >> 6)
        length = (first & 63) << 8 * (size - 1) | self.uint(size - 1)
        if len(header(length)) != size:
            raise Fault(5)
        return self.take(length)


@dataclass(frozen=True)
class PrivateMessage:
    group_id: bytes
    epoch: int
    authenticated_data: bytes
    encrypted_sender_data: bytes
    ciphertext: bytes

    def sender_data_aad(self):
        return opaque(self.group_id) + uint(8, self.epoch) + uint(1, APPLICATION)

    def content_aad(self):
        return self.sender_data_aad() + opaque(self.authenticated_data)

    def write(self):
        sealed = opaque(self.encrypted_sender_data) + opaque(self.ciphertext)
        return uint(2, MLS10) + uint(2, PRIVATE_MESSAGE) + self.content_aad() + sealed

    @staticmethod
    def read(content):
        left = Bytes(content)
        left.uint(2, MLS10)
        left.uint(2, PRIVATE_MESSAGE)
        group_id, epoch = left.opaque(), left.uint(8)
        left.uint(1, APPLICATION)
        message = PrivateMessage(group_id, epoch, left.opaque(), left.opaque(), left.opaque())
        if left.content:
            raise Fault(3)
        return message


@dataclass(frozen=True)
class SenderData:
    leaf: int
    generation: int
    guard: int

    def write(self):
        return uint(4, self.leaf) + uint(4, self.generation) + uint(4, self.guard)


def sender_data_key(secret, ciphertext, sample=32):
    key, nonce = (expand_with_label(secret, label, ciphertext[:sample], length)
                  for label, length in ((b"key", KEY_LENGTH), (b"nonce", NONCE_LENGTH)))
    return key, nonce


def guarded(nonce, guard):
    return bytes(x ^ y for x, y in zip(nonce, uint(4, guard))) + nonce[4:]


def opened(key, nonce, sealed, additional, number):
    try:
        return aead_open(key, nonce, sealed, additional)
    except Refused:
        raise Fault(number) from None


class Conversation:
    """What a member seals and opens application messages of its epoch with."""

    def __init__(self, member):
        self.state, self.signature_private = member.state, member.signature_private
        self.ratchets = {}

    def ratchet(self, leaf):
        if leaf not in self.ratchets:
            leaves = (len(self.state.tree.nodes) + 1) // 2
            self.ratchets[leaf] = Ratchet(self.state.epoch.encryption_secret, leaves, leaf)
        return self.ratchets[leaf]

    def framed(self, leaf, authenticated_data, data):
        context = self.state.context
        return FramedContent(context.group_id, context.epoch, leaf, authenticated_data, data)

    def signature(self, data, authenticated_data, wire_format=PRIVATE_MESSAGE):
        content = self.framed(self.state.leaf, authenticated_data, data)
        signed = content.signed_input(self.state.context, wire_format)
        return sign_with_label(self.signature_private, b"FramedContentTBS", signed)

    def sealed(self, content, authenticated_data, sender, key, **wrong):
        """A message of a content. What is wrong in it may be named: the group, the epoch, the bytes of the sender data,
        the length of the sample, the guard that is applied."""
        context = self.state.context
        message = PrivateMessage(wrong.get("group_id", context.group_id), wrong.get("epoch", context.epoch),
                                 authenticated_data, b"", b"")
        nonce = guarded(key[1], wrong.get("guard", sender.guard))
        ciphertext = aead_seal(key[0], nonce, content, message.content_aad())
        sample_key = sender_data_key(self.state.epoch.sender_data_secret, ciphertext, wrong.get("sample", 32))
        sealed = aead_seal(*sample_key, wrong.get("sender_data", sender.write()), message.sender_data_aad())
        return PrivateMessage(message.group_id, message.epoch, authenticated_data, sealed, ciphertext).write()

    def seal(self, data, authenticated_data, padding, seed):
        own = self.ratchet(self.state.leaf)
        guard = int.from_bytes(expand_with_label(seed, b"seed guard", b"", 4), "big")
        sender = SenderData(self.state.leaf, own.next, guard)
        content = opaque(data) + opaque(self.signature(data, authenticated_data)) + bytes(padding)
        message = self.sealed(content, authenticated_data, sender, own.key(own.next))
        own.use(sender.generation)
        return message

    def open(self, content):
        """The sender's leaf and identity, the generation and the data."""
        message, context = PrivateMessage.read(content), self.state.context
        if message.group_id != context.group_id:
            raise Fault(111)
        if message.epoch != context.epoch:
            raise Fault(112)
        sender = self.sender_of(message)
        leaf = self.state.tree.leaf(sender.leaf)
        if leaf is None:
            raise Fault(114)
        ratchet = self.ratchet(sender.leaf)
        key, nonce = ratchet.key(sender.generation)
        text = opened(key, guarded(nonce, sender.guard), message.ciphertext, message.content_aad(), 117)
        data = self.data_of(message, sender, leaf, Bytes(text))
        ratchet.use(sender.generation)
        return sender.leaf, leaf.identity, sender.generation, data

    def sender_of(self, message):
        key = sender_data_key(self.state.epoch.sender_data_secret, message.ciphertext)
        text = opened(*key, message.encrypted_sender_data, message.sender_data_aad(), 113)
        if len(text) != 12:
            raise Fault(113)
        return SenderData(*(int.from_bytes(text[at : at + 4], "big") for at in (0, 4, 8)))

    def data_of(self, message, sender, leaf, text):
        data, signature = text.opaque(), text.opaque()
        if any(text.content):
            raise Fault(118)
        content = self.framed(sender.leaf, message.authenticated_data, data)
        signed = content.signed_input(self.state.context, PRIVATE_MESSAGE)
        try:
            verify_with_label(leaf.signature_key, b"FramedContentTBS", signed, signature)
        except Refused:
            raise Fault(119) from None
        return data
