"""The structures of RFC 9420 that the outsider reads and writes, field by field.

Each class has `write()`, which answers bytes, and `read(reader)`. A class's fields stand in the order of the wire.
Values are never changed: a changed one is a new one (`dataclasses.replace`).
"""
from dataclasses import dataclass, replace
from typing import Optional, Union

MLS10 = 1
SUITE = 0x0001
BASIC = 1
PUBLIC_MESSAGE, PRIVATE_MESSAGE, WELCOME, GROUP_INFO, KEY_PACKAGE = 1, 2, 3, 4, 5
FROM_KEY_PACKAGE, FROM_UPDATE, FROM_COMMIT = 1, 2, 3
LEAF, PARENT = 1, 2
MEMBER = 1
APPLICATION, PROPOSAL, COMMIT = 1, 2, 3
RATCHET_TREE = 2
LONGEST_LIFE = 2**64 - 1


class Refused(Exception):
    """Bytes or a call that the standard doesn't allow."""


class Unsupported(Refused):
    """What the standard allows and this outsider doesn't have."""


# ---- numbers and vectors (RFC 9420, section 2.1)


def uint(size, value):
    return value.to_bytes(size, "big")


def header(length):
    """The shortest header of a vector's length in bytes."""
    if length < 1 << 6:
        return uint(1, length)
    if length < 1 << 14:
        return uint(2, 1 << 14 | length)
    if length < 1 << 30:
        return uint(4, 1 << 31 | length)
    raise Refused("a vector is too long")


def opaque(content):
    return header(len(content)) + content


def vector(items):
    return opaque(b"".join(item.write() for item in items))


def numbers(size, values):
    return opaque(b"".join(uint(size, value) for value in values))


def optional(item):
    return b"\0" if item is None else b"\1" + item.write()


class Reader:
    """What is left of some bytes."""

    def __init__(self, content):
        self.content, self.at = content, 0

    def take(self, count):
        if count > len(self.content) - self.at:
            raise Refused("the bytes end too early")
        self.at += count
        return self.content[self.at - count : self.at]

    def uint(self, size):
        return int.from_bytes(self.take(size), "big")

    def opaque(self):
        first = self.uint(1)
        if first >> 6 == 3:
            raise Refused("no length begins so")
        size = 1 << (first >> 6)
        length = (first & 63) << 8 * (size - 1) | self.uint(size - 1)
        if size > 1 and len(header(length)) != size:
            raise Refused("a length has a shorter form")
        return self.take(length)

    def items(self, read):
        """The values of a vector, each read by `read`."""
        inner, found = Reader(self.opaque()), []
        while inner.at < len(inner.content):
            found.append(read(inner))
        return tuple(found)

    def numbers(self, size):
        return self.items(lambda inner: inner.uint(size))

    def optional(self, read):
        present = self.uint(1)
        if present > 1:
            raise Refused("no optional begins so")
        return read(self) if present else None

    def constant(self, size, *allowed, what):
        value = self.uint(size)
        if value not in allowed:
            raise Unsupported(f"{what} {value}")
        return value


def read_whole(read, content):
    """The value that the bytes are from their beginning to their end."""
    reader = Reader(content)
    value = read(reader)
    if reader.at < len(content):
        raise Refused("bytes are left over")
    return value


# ---- leaves, parents, key packages (sections 5.3, 7.1, 7.2, 10)


@dataclass(frozen=True)
class Extension:
    kind: int
    content: bytes

    def write(self):
        return uint(2, self.kind) + opaque(self.content)

    @staticmethod
    def read(reader):
        return Extension(reader.uint(2), reader.opaque())


def read_extensions(reader):
    """A list of extensions, which has each type once at most (section 13)."""
    extensions = reader.items(Extension.read)
    if len({it.kind for it in extensions}) < len(extensions):
        raise Refused("an extension stands twice")
    return extensions


@dataclass(frozen=True)
class Capabilities:
    versions: tuple = (MLS10,)
    cipher_suites: tuple = (SUITE,)
    extensions: tuple = ()
    proposals: tuple = ()
    credentials: tuple = (BASIC,)

    def write(self):
        lists = (self.versions, self.cipher_suites, self.extensions, self.proposals, self.credentials)
        return b"".join(numbers(2, it) for it in lists)

    @staticmethod
    def read(reader):
        return Capabilities(*(reader.numbers(2) for _ in range(5)))


@dataclass(frozen=True)
class LeafNode:
    """Of its sources' parts `lifetime` belongs to a key package, and `parent_hash` to a commit."""

    encryption_key: bytes
    signature_key: bytes
    identity: bytes
    capabilities: Capabilities
    source: int
    lifetime: Optional[tuple] = None
    parent_hash: Optional[bytes] = None
    extensions: tuple = ()
    signature: bytes = b""

    def write_unsigned(self):
        part = b""
        if self.source == FROM_KEY_PACKAGE:
            part = uint(8, self.lifetime[0]) + uint(8, self.lifetime[1])
        elif self.source == FROM_COMMIT:
            part = opaque(self.parent_hash)
        keys = opaque(self.encryption_key) + opaque(self.signature_key)
        credential = uint(2, BASIC) + opaque(self.identity)
        return keys + credential + self.capabilities.write() + uint(1, self.source) + part + vector(self.extensions)

    def write(self):
        return self.write_unsigned() + opaque(self.signature)

    def signed_input(self, group_id, leaf_index):
        """LeafNodeTBS (section 7.2). A key package's leaf is of no group."""
        place = b"" if self.source == FROM_KEY_PACKAGE else opaque(group_id) + uint(4, leaf_index)
        return self.write_unsigned() + place

    @staticmethod
    def read(reader):
        encryption_key, signature_key = reader.opaque(), reader.opaque()
        reader.constant(2, BASIC, what="a credential of type")
        identity, capabilities = reader.opaque(), Capabilities.read(reader)
        source = reader.constant(1, FROM_KEY_PACKAGE, FROM_UPDATE, FROM_COMMIT, what="a leaf's source")
        lifetime = (reader.uint(8), reader.uint(8)) if source == FROM_KEY_PACKAGE else None
        parent_hash = reader.opaque() if source == FROM_COMMIT else None
        rest = read_extensions(reader), reader.opaque()
        return LeafNode(encryption_key, signature_key, identity, capabilities, source, lifetime, parent_hash, *rest)


@dataclass(frozen=True)
class ParentNode:
    encryption_key: bytes
    parent_hash: bytes = b""
    unmerged_leaves: tuple = ()

    def write(self):
        return opaque(self.encryption_key) + opaque(self.parent_hash) + numbers(4, self.unmerged_leaves)

    @staticmethod
    def read(reader):
        node = ParentNode(reader.opaque(), reader.opaque(), reader.numbers(4))
        if any(a >= b for a, b in zip(node.unmerged_leaves, node.unmerged_leaves[1:])):
            raise Refused("unmerged leaves do not rise")
        return node


@dataclass(frozen=True)
class Node:
    """A node of a ratchet_tree extension (section 12.4.3.3)."""

    node: Union[LeafNode, ParentNode]

    def write(self):
        return uint(1, LEAF if isinstance(self.node, LeafNode) else PARENT) + self.node.write()

    @staticmethod
    def read(reader):
        kind = reader.constant(1, LEAF, PARENT, what="a node of type")
        return Node(LeafNode.read(reader) if kind == LEAF else ParentNode.read(reader))


@dataclass(frozen=True)
class KeyPackage:
    init_key: bytes
    leaf_node: LeafNode
    extensions: tuple = ()
    signature: bytes = b""

    def write_unsigned(self):
        head = uint(2, MLS10) + uint(2, SUITE)
        return head + opaque(self.init_key) + self.leaf_node.write() + vector(self.extensions)

    def write(self):
        return self.write_unsigned() + opaque(self.signature)

    @staticmethod
    def read(reader):
        reader.constant(2, MLS10, what="a version")
        reader.constant(2, SUITE, what="a cipher suite")
        return KeyPackage(reader.opaque(), LeafNode.read(reader), read_extensions(reader), reader.opaque())


# ---- proposals and commits (sections 7.6, 12.1, 12.4)


@dataclass(frozen=True)
class Add:
    key_package: KeyPackage
    number = 1

    def write(self):
        return uint(2, self.number) + self.key_package.write()


@dataclass(frozen=True)
class Update:
    leaf_node: LeafNode
    number = 2

    def write(self):
        return uint(2, self.number) + self.leaf_node.write()


@dataclass(frozen=True)
class Remove:
    removed: int
    number = 3

    def write(self):
        return uint(2, self.number) + uint(4, self.removed)


@dataclass(frozen=True)
class GroupContextExtensions:
    extensions: tuple
    number = 7

    def write(self):
        return uint(2, self.number) + vector(self.extensions)


def read_proposal(reader):
    number = reader.constant(2, 1, 2, 3, 7, what="a proposal of type")
    if number == Add.number:
        return Add(KeyPackage.read(reader))
    if number == Update.number:
        return Update(LeafNode.read(reader))
    if number == Remove.number:
        return Remove(reader.uint(4))
    return GroupContextExtensions(read_extensions(reader))


@dataclass(frozen=True)
class InFull:
    """ProposalOrRef, the proposal itself."""

    proposal: Union[Add, Update, Remove, GroupContextExtensions]

    def write(self):
        return b"\1" + self.proposal.write()


@dataclass(frozen=True)
class ByReference:
    """ProposalOrRef, the hash reference of a proposal's message."""

    reference: bytes

    def write(self):
        return b"\2" + opaque(self.reference)


def read_proposal_or_ref(reader):
    kind = reader.constant(1, 1, 2, what="a ProposalOrRef of type")
    return InFull(read_proposal(reader)) if kind == 1 else ByReference(reader.opaque())


@dataclass(frozen=True)
class Ciphertext:
    """HPKECiphertext"""

    kem_output: bytes
    ciphertext: bytes

    def write(self):
        return opaque(self.kem_output) + opaque(self.ciphertext)

    @staticmethod
    def read(reader):
        return Ciphertext(reader.opaque(), reader.opaque())


@dataclass(frozen=True)
class UpdatePathNode:
    encryption_key: bytes
    encrypted_path_secret: tuple

    def write(self):
        return opaque(self.encryption_key) + vector(self.encrypted_path_secret)

    @staticmethod
    def read(reader):
        return UpdatePathNode(reader.opaque(), reader.items(Ciphertext.read))


@dataclass(frozen=True)
class UpdatePath:
    leaf_node: LeafNode
    nodes: tuple

    def write(self):
        return self.leaf_node.write() + vector(self.nodes)

    @staticmethod
    def read(reader):
        return UpdatePath(LeafNode.read(reader), reader.items(UpdatePathNode.read))


@dataclass(frozen=True)
class Commit:
    proposals: tuple
    path: Optional[UpdatePath]

    def write(self):
        return vector(self.proposals) + optional(self.path)

    @staticmethod
    def read(reader):
        return Commit(reader.items(read_proposal_or_ref), reader.optional(UpdatePath.read))


# ---- framing (sections 6.1, 6.2, 8.1)


@dataclass(frozen=True)
class GroupContext:
    group_id: bytes
    epoch: int
    tree_hash: bytes
    confirmed_transcript_hash: bytes
    extensions: tuple = ()

    def write(self):
        head = uint(2, MLS10) + uint(2, SUITE) + opaque(self.group_id) + uint(8, self.epoch)
        return head + opaque(self.tree_hash) + opaque(self.confirmed_transcript_hash) + vector(self.extensions)

    @staticmethod
    def read(reader):
        reader.constant(2, MLS10, what="a version")
        reader.constant(2, SUITE, what="a cipher suite")
        return GroupContext(reader.opaque(), reader.uint(8), reader.opaque(), reader.opaque(), read_extensions(reader))


@dataclass(frozen=True)
class FramedContent:
    """Of a member. The body is bytes of an application, a proposal, or a Commit."""

    group_id: bytes
    epoch: int
    sender: int
    authenticated_data: bytes
    body: object

    def write(self):
        head = opaque(self.group_id) + uint(8, self.epoch) + uint(1, MEMBER) + uint(4, self.sender)
        if isinstance(self.body, bytes):
            body = uint(1, APPLICATION) + opaque(self.body)
        else:
            body = uint(1, COMMIT if isinstance(self.body, Commit) else PROPOSAL) + self.body.write()
        return head + opaque(self.authenticated_data) + body

    def signed_input(self, context, wire_format=PUBLIC_MESSAGE):
        """FramedContentTBS, under the GroupContext of the epoch that the content is sent in."""
        return uint(2, MLS10) + uint(2, wire_format) + self.write() + context.write()

    @staticmethod
    def read(reader):
        group_id, epoch = reader.opaque(), reader.uint(8)
        reader.constant(1, MEMBER, what="a sender of type")
        sender, authenticated_data = reader.uint(4), reader.opaque()
        kind = reader.constant(1, APPLICATION, PROPOSAL, COMMIT, what="a content of type")
        body = {APPLICATION: Reader.opaque, PROPOSAL: read_proposal, COMMIT: Commit.read}[kind](reader)
        return FramedContent(group_id, epoch, sender, authenticated_data, body)


@dataclass(frozen=True)
class AuthData:
    """FramedContentAuthData: a commit has a confirmation tag, and no other content has one."""

    signature: bytes
    confirmation_tag: Optional[bytes] = None

    def write(self):
        tag = b"" if self.confirmation_tag is None else opaque(self.confirmation_tag)
        return opaque(self.signature) + tag


@dataclass(frozen=True)
class PublicMessage:
    content: FramedContent
    auth: AuthData
    membership_tag: bytes

    def write(self):
        return self.content.write() + self.auth.write() + opaque(self.membership_tag)

    def write_authenticated(self):
        """AuthenticatedContent, which a proposal's reference is the hash of."""
        return uint(2, PUBLIC_MESSAGE) + self.content.write() + self.auth.write()

    @staticmethod
    def read(reader):
        content = FramedContent.read(reader)
        signature = reader.opaque()
        tag = reader.opaque() if isinstance(content.body, Commit) else None
        return PublicMessage(content, AuthData(signature, tag), reader.opaque())


# ---- welcomes (sections 12.4.3, 12.4.3.1)


@dataclass(frozen=True)
class GroupInfo:
    context: GroupContext
    extensions: tuple
    confirmation_tag: bytes
    signer: int
    signature: bytes = b""

    def write_unsigned(self):
        tag = opaque(self.confirmation_tag)
        return self.context.write() + vector(self.extensions) + tag + uint(4, self.signer)

    def write(self):
        return self.write_unsigned() + opaque(self.signature)

    @staticmethod
    def read(reader):
        context, extensions, tag = GroupContext.read(reader), read_extensions(reader), reader.opaque()
        return GroupInfo(context, extensions, tag, reader.uint(4), reader.opaque())


@dataclass(frozen=True)
class GroupSecrets:
    joiner_secret: bytes
    path_secret: Optional[bytes]

    def write(self):
        path = b"\0" if self.path_secret is None else b"\1" + opaque(self.path_secret)
        return opaque(self.joiner_secret) + path + opaque(b"")

    @staticmethod
    def read(reader):
        secrets = GroupSecrets(reader.opaque(), reader.optional(Reader.opaque))
        if reader.opaque():
            raise Unsupported("pre-shared keys")
        return secrets


@dataclass(frozen=True)
class EncryptedGroupSecrets:
    new_member: bytes
    encrypted_group_secrets: Ciphertext

    def write(self):
        return opaque(self.new_member) + self.encrypted_group_secrets.write()

    @staticmethod
    def read(reader):
        return EncryptedGroupSecrets(reader.opaque(), Ciphertext.read(reader))


@dataclass(frozen=True)
class Welcome:
    secrets: tuple
    encrypted_group_info: bytes

    def write(self):
        return uint(2, SUITE) + vector(self.secrets) + opaque(self.encrypted_group_info)

    @staticmethod
    def read(reader):
        reader.constant(2, SUITE, what="a cipher suite")
        return Welcome(reader.items(EncryptedGroupSecrets.read), reader.opaque())


# ---- messages (section 6)

KINDS = {PUBLIC_MESSAGE: PublicMessage, WELCOME: Welcome, GROUP_INFO: GroupInfo, KEY_PACKAGE: KeyPackage}


def write_message(body):
    """An MLSMessage."""
    wire_format = next(number for number, kind in KINDS.items() if isinstance(body, kind))
    return uint(2, MLS10) + uint(2, wire_format) + body.write()


def read_message(content, kind):
    """The body of an MLSMessage of that kind."""
    reader = Reader(content)
    reader.constant(2, MLS10, what="a version")
    found = KINDS[reader.constant(2, *KINDS, what="a wire format")]
    if found is not kind:
        raise Refused(f"no {kind.__name__}, but a {found.__name__}")
    return read_whole(kind.read, content[4:])


def signed(value, signature):
    return replace(value, signature=signature)
