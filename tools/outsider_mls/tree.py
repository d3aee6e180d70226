"""The ratchet tree (RFC 9420, sections 4, 7.3 to 7.9 and 12.4.3.3, appendix C).

Leaf i is node 2i. A node of level k has k one bits at its end, and stands over 2^k leaves.
"""
from dataclasses import replace

from .crypto import check_encryption_key, derive_key_pair, derive_secret, hash_of, verify_with_label
from .wire import BASIC, MLS10, SUITE, LeafNode, Node, ParentNode, Refused, opaque, optional, read_whole, uint

DEFAULT_EXTENSIONS = range(1, 6)


def level(x):
    return (~x & (x + 1)).bit_length() - 1


def left(x):
    return x - (1 << level(x) - 1)


def right(x):
    return x + (1 << level(x) - 1)


def parent(x):
    """The node above. It is the middle of the block of nodes that x, its sibling and their parent stand in."""
    size = 1 << level(x) + 2
    return x // size * size + size // 2 - 1


def is_over(x, leaf):
    """Whether the leaf stands under node x, or is it."""
    return abs(2 * leaf - x) < 1 << level(x)


def check_leaf(leaf, source, group_id, index):
    """What a leaf must be by itself (section 7.3). Lifetimes are held against no clock."""
    if leaf.source != source:
        raise Refused("a leaf has another source")
    verify_with_label(leaf.signature_key, b"LeafNodeTBS", leaf.signed_input(group_id, index), leaf.signature)
    able = leaf.capabilities
    if MLS10 not in able.versions or SUITE not in able.cipher_suites or BASIC not in able.credentials:
        raise Refused("a leaf lacks a capability")
    if any(it.kind not in able.extensions and it.kind not in DEFAULT_EXTENSIONS for it in leaf.extensions):
        raise Refused("a leaf has an extension that it doesn't list")
    check_encryption_key(leaf.encryption_key)


def read_nodes(reader):
    return reader.items(lambda inner: inner.optional(Node.read))


class RatchetTree:
    """A list of nodes: a LeafNode at an even place, a ParentNode at an odd one, or None where the node is blank."""

    def __init__(self, nodes):
        self.nodes = list(nodes)

    def copy(self):
        return RatchetTree(self.nodes)

    @property
    def leaf_count(self):
        return (len(self.nodes) + 1) // 2

    @property
    def root(self):
        return self.leaf_count - 1

    def leaf(self, index):
        return self.nodes[2 * index] if 0 <= index < self.leaf_count else None

    def members(self):
        """The indices of the leaves that aren't blank."""
        return [index for index in range(self.leaf_count) if self.nodes[2 * index] is not None]

    def direct_path(self, leaf):
        path, x = [], 2 * leaf
        while x != self.root:
            x = parent(x)
            path.append(x)
        return path

    def resolution(self, x):
        node = self.nodes[x]
        if node is not None:
            unmerged = node.unmerged_leaves if isinstance(node, ParentNode) else ()
            return [x] + [2 * leaf for leaf in unmerged]
        return [] if level(x) == 0 else self.resolution(left(x)) + self.resolution(right(x))

    def filtered_direct_path(self, leaf):
        """Pairs of a node above the leaf and its child on the copath, where that child resolves to something."""
        pairs = []
        for x in self.direct_path(leaf):
            child = right(x) if 2 * leaf < x else left(x)
            if self.resolution(child):
                pairs.append((x, child))
        return pairs

    # ---- edits (sections 7.7, 12.1)

    def blank_path(self, leaf):
        for x in self.direct_path(leaf):
            self.nodes[x] = None

    def add(self, leaf_node):
        """Puts a leaf into the leftmost blank place, which it answers."""
        free = [index for index in range(self.leaf_count) if self.nodes[2 * index] is None]
        if not free:
            free = [self.leaf_count]
            self.nodes += [None] * (len(self.nodes) + 1)
        index = free[0]
        self.nodes[2 * index] = leaf_node
        for x in self.direct_path(index):
            node = self.nodes[x]
            if node is not None:
                self.nodes[x] = replace(node, unmerged_leaves=tuple(sorted((*node.unmerged_leaves, index))))
        return index

    def update(self, index, leaf_node):
        self.nodes[2 * index] = leaf_node
        self.blank_path(index)

    def remove(self, index):
        self.nodes[2 * index] = None
        self.blank_path(index)
        while self.leaf_count > 1 and not any(self.leaf(i) for i in range(self.leaf_count // 2, self.leaf_count)):
            del self.nodes[self.root :]

    # ---- hashes (sections 7.8, 7.9)

    def hash_at(self, x, without=frozenset()):
        """The tree hash of node x, as if some leaves were blank and in no list of unmerged leaves."""
        node = self.nodes[x]
        if level(x) == 0:
            return hash_of(b"\1", uint(4, x // 2), optional(None if x // 2 in without else node))
        if node is not None:
            kept = tuple(leaf for leaf in node.unmerged_leaves if leaf not in without)
            node = replace(node, unmerged_leaves=kept)
        hashes = opaque(self.hash_at(left(x), without)) + opaque(self.hash_at(right(x), without))
        return hash_of(b"\2", optional(node), hashes)

    def tree_hash(self):
        return self.hash_at(self.root)

    def parent_hash(self, x, sibling):
        """The parent hash of parent x, for a node below the child of x that isn't `sibling`."""
        node = self.nodes[x]
        original = self.hash_at(sibling, frozenset(node.unmerged_leaves))
        return hash_of(opaque(node.encryption_key), opaque(node.parent_hash), opaque(original))

    def is_parent_hash_valid(self, x):
        """Whether some node below x, which the keys of x came with, has the parent hash of x (section 7.9.2)."""
        node = self.nodes[x]
        for child, sibling in ((left(x), right(x)), (right(x), left(x))):
            expected, resolution = self.parent_hash(x, sibling), self.resolution(child)
            unmerged = {2 * leaf for leaf in node.unmerged_leaves if is_over(child, leaf)}
            for below in resolution:
                found = getattr(self.nodes[below], "parent_hash", None)
                if found == expected and set(resolution) - {below} == unmerged:
                    return True
        return False

    def merge_path(self, leaf, public_keys):
        """Puts a path's keys into the tree, the leaf aside, and answers the parent hash that the leaf has to have."""
        pairs = self.filtered_direct_path(leaf)
        if len(pairs) != len(public_keys):
            raise Refused("the path hasn't a key for each of its parents")
        self.blank_path(leaf)
        above = b""
        for (x, child), key in reversed(list(zip(pairs, public_keys))):
            self.nodes[x] = ParentNode(key, above)
            above = self.parent_hash(x, child)
        return above

    # ---- checks (sections 7.3, 12.4.3.1)

    def check_unique(self):
        keys = [node.encryption_key for node in self.nodes if node is not None]
        if len(set(keys)) < len(keys):
            raise Refused("two nodes have one encryption key")
        clients = [self.leaf(index).signature_key for index in self.members()]
        if len(set(clients)) < len(clients):
            raise Refused("two members have one signature key")

    def check_unmerged(self, x):
        for leaf in self.nodes[x].unmerged_leaves:
            if not is_over(x, leaf) or self.leaf(leaf) is None:
                raise Refused("an unmerged leaf is no member below its node")
            for between in self.direct_path(leaf)[: level(x) - 1]:
                node = self.nodes[between]
                if node is not None and leaf not in node.unmerged_leaves:
                    raise Refused("a node between doesn't list an unmerged leaf")

    def check(self, group_id):
        """All that a joiner has to verify of a tree, its hash aside."""
        if self.members()[-1:] < [self.leaf_count // 2]:
            raise Refused("the right half of a tree has no member")
        parents = [x for x in range(1, len(self.nodes), 2) if self.nodes[x] is not None]
        for x in parents:
            self.check_unmerged(x)
        for x in parents:
            check_encryption_key(self.nodes[x].encryption_key)
            if not self.is_parent_hash_valid(x):
                raise Refused("a parent hash is wrong")
        self.check_unique()
        for index in self.members():
            check_leaf(self.leaf(index), self.leaf(index).source, group_id, index)

    # ---- the extension (section 12.4.3.3)

    def write(self):
        last = max(x for x, node in enumerate(self.nodes) if node is not None)
        return opaque(b"".join(optional(node and Node(node)) for node in self.nodes[: last + 1]))

    @staticmethod
    def read(content):
        nodes = [it and it.node for it in read_whole(read_nodes, content)]
        if not nodes or nodes[-1] is None:
            raise Refused("a tree ends with a blank node")
        if any(node is not None and isinstance(node, LeafNode) != (x % 2 == 0) for x, node in enumerate(nodes)):
            raise Refused("a node stands at a wrong place")
        size = 1
        while size < len(nodes):
            size = 2 * size + 1
        return RatchetTree(nodes + [None] * (size - len(nodes)))


# ---- path secrets (section 7.4)


def path_secrets(first, count):
    """The secrets of so many nodes of a path, and the commit secret, which is the one after them."""
    secrets = [first]
    for _ in range(count):
        secrets.append(derive_secret(secrets[-1], b"path"))
    return secrets[:-1], secrets[-1]


def node_key_pair(path_secret):
    return derive_key_pair(derive_secret(path_secret, b"node"))
