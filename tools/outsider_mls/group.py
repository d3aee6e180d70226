"""An outsider as a member of a group: proposals, commits, Welcomes, and what it makes of those of others (RFC 9420,
sections 6, 7.5, 10 to 12).

Each call takes all its randomness from a seed of 32 bytes, so a call can be made again. What is drawn from a seed
under which label is as docs/FORMATS.md says ("Labels"), for the standard leaves it open. So an outsider and a member
of the engine that make the same calls with the same seeds are to make the same bytes.
"""
from dataclasses import dataclass, field, replace
from itertools import count
from typing import Optional

from .crypto import (ZERO, aead_open, aead_seal, check_encryption_key, decrypt_with_label, derive_key_pair,
                     derive_secret, encrypt_with_label, expand_with_label, key_package_ref, proposal_ref, same,
                     sign_with_label, signature_public, verify_with_label)
from .schedule import Epoch, confirmed_hash, interim_hash, welcome_key_and_nonce
from .tree import RatchetTree, check_leaf, is_over, node_key_pair, path_secrets
from .wire import (FROM_COMMIT, FROM_KEY_PACKAGE, FROM_UPDATE, LONGEST_LIFE, RATCHET_TREE, Add, AuthData, Capabilities,
                   Commit, EncryptedGroupSecrets, Extension, FramedContent, GroupContext, GroupContextExtensions,
                   GroupInfo, GroupSecrets, InFull, KeyPackage, LeafNode, PublicMessage,
                   Refused, Remove, Unsupported, Update, UpdatePath, UpdatePathNode, Welcome, read_message, read_whole,
                   signed, uint, write_message)

LAST_EPOCH = 2**64 - 1


@dataclass(frozen=True)
class State:
    """What a member holds in one epoch. `privates` are private keys by the nodes that they belong to."""

    context: GroupContext
    tree: RatchetTree
    leaf: int
    privates: dict
    epoch: Epoch
    confirmation_tag: bytes

    @property
    def interim(self):
        return interim_hash(self.context.confirmed_transcript_hash, self.confirmation_tag)


@dataclass(frozen=True)
class Kept:
    """A proposal with its sender's leaf; of an own update also the private key of its leaf."""

    sender: int
    proposal: object
    private: Optional[bytes] = None


@dataclass
class Edited:
    """A state after a commit's proposals, and later its path. The context is the provisional GroupContext."""

    context: GroupContext
    tree: RatchetTree
    privates: dict
    needs_path: bool
    removed: set = field(default_factory=set)
    added: list = field(default_factory=list)

    def receivers(self, child):
        """The nodes that a path secret is sealed to: not the leaves that the commit adds."""
        new = {2 * index for index, _ in self.added}
        return [x for x in self.tree.resolution(child) if x not in new]

    def take_tree_hash(self):
        self.context = replace(self.context, tree_hash=self.tree.tree_hash())


# ---- checks of what others make


def check_key_package(key_package):
    """Section 10.1. Version and suite were checked by reading."""
    check_leaf(key_package.leaf_node, FROM_KEY_PACKAGE, b"", 0)
    content, signature = key_package.write_unsigned(), key_package.signature
    verify_with_label(key_package.leaf_node.signature_key, b"KeyPackageTBS", content, signature)
    if key_package.init_key == key_package.leaf_node.encryption_key:
        raise Refused("an init key is the leaf's key")
    check_encryption_key(key_package.init_key)


def read_key_package(message):
    key_package = read_message(message, KeyPackage)
    check_key_package(key_package)
    return key_package


def check_new_leaf(state, leaf_node, source, index):
    """A leaf that stands for another one of its member (sections 7.3, 12.1.2, 12.4.2)."""
    check_leaf(leaf_node, source, state.context.group_id, index)
    old = state.tree.leaf(index)
    if old is None or old.encryption_key == leaf_node.encryption_key:
        raise Refused("a leaf has the same key, or there is none to be replaced")
    if (old.signature_key, old.identity) != (leaf_node.signature_key, leaf_node.identity):
        raise Unsupported("a leaf of another identity, which an authentication service would judge")


def check_proposal(state, kept):
    """What a proposal must be by itself (section 12.1). No leaf need list the types of a group's extensions."""
    proposal = kept.proposal
    if isinstance(proposal, Add):
        check_key_package(proposal.key_package)
    elif isinstance(proposal, Update):
        check_new_leaf(state, proposal.leaf_node, FROM_UPDATE, kept.sender)
    elif isinstance(proposal, Remove) and state.tree.leaf(proposal.removed) is None:
        raise Refused("nobody is at the leaf that is removed")


def check_list(proposals, committer):
    """What no list of proposals may have (section 12.2)."""
    changed = []
    for kept in proposals:
        if isinstance(kept.proposal, Update):
            changed.append(kept.sender)
        elif isinstance(kept.proposal, Remove):
            changed.append(kept.proposal.removed)
    if committer in changed:
        raise Refused("a commit updates or removes its committer")
    if len(set(changed)) < len(changed):
        raise Refused("a commit changes a leaf twice")
    if sum(isinstance(kept.proposal, GroupContextExtensions) for kept in proposals) > 1:
        raise Refused("a commit has two lists of extensions")


# ---- a commit's proposals and path


def edit(state, proposals, committer):
    """The state with the proposals applied: extensions, updates, removes, adds (section 12.3)."""
    if state.context.epoch == LAST_EPOCH:
        raise Refused("no epoch comes after this one")
    for kept in proposals:
        check_proposal(state, kept)
    check_list(proposals, committer)
    needs_path = not proposals or any(not isinstance(kept.proposal, Add) for kept in proposals)
    edited = Edited(state.context, state.tree.copy(), dict(state.privates), needs_path)
    of_kind = {kind: [kept for kept in proposals if isinstance(kept.proposal, kind)]
               for kind in (GroupContextExtensions, Update, Remove, Add)}
    for kept in of_kind[GroupContextExtensions]:
        edited.context = replace(edited.context, extensions=kept.proposal.extensions)
    for kept in of_kind[Update]:
        edited.tree.update(kept.sender, kept.proposal.leaf_node)
        if kept.sender == state.leaf:
            edited.privates[2 * state.leaf] = kept.private
    for kept in of_kind[Remove]:
        edited.tree.remove(kept.proposal.removed)
        edited.removed.add(kept.proposal.removed)
    for kept in of_kind[Add]:
        index = edited.tree.add(kept.proposal.key_package.leaf_node)
        edited.added.append((index, kept.proposal.key_package))
    edited.tree.check_unique()
    nodes = edited.tree.nodes
    edited.privates = {x: it for x, it in edited.privates.items() if x < len(nodes) and nodes[x] is not None}
    edited.context = replace(edited.context, epoch=state.context.epoch + 1)
    edited.take_tree_hash()
    return edited


def merge(state, edited, committer, path):
    """Checks a path by what all see of it, and puts it into the tree. It answers the filtered direct path."""
    check_new_leaf(state, path.leaf_node, FROM_COMMIT, committer)
    pairs = edited.tree.filtered_direct_path(committer)
    keys = [node.encryption_key for node in path.nodes]
    present = {node.encryption_key for node in edited.tree.nodes if node is not None}
    if present & {path.leaf_node.encryption_key, *keys}:
        raise Refused("a key of the path is in the tree")
    if path.leaf_node.parent_hash != edited.tree.merge_path(committer, keys):
        raise Refused("the path's leaf has another parent hash")
    edited.tree.nodes[2 * committer] = path.leaf_node
    edited.tree.check_unique()
    for (_, child), node in zip(pairs, path.nodes):
        check_encryption_key(node.encryption_key)
        if len(node.encrypted_path_secret) != len(edited.receivers(child)):
            raise Refused("a node hasn't a ciphertext for each receiver")
    edited.take_tree_hash()
    return pairs


def drop_privates(edited, committer):
    for x in edited.tree.direct_path(committer):
        edited.privates.pop(x, None)


def open_path(state, edited, committer, path, pairs):
    """Opens the path secret that is sealed to this member, takes the keys from there up, answers the commit secret."""
    place = next(i for i, (_, child) in enumerate(pairs) if is_over(child, state.leaf))
    receivers = edited.receivers(pairs[place][1])
    own = next((x for x in receivers if x in edited.privates), None)
    if own is None:
        raise Refused("no path secret is sealed to this member")
    sealed = path.nodes[place].encrypted_path_secret[receivers.index(own)]
    context = edited.context.write()
    secret = decrypt_with_label(edited.privates[own], b"UpdatePathNode", context, sealed)
    if len(secret) != len(ZERO):
        raise Refused("a path secret has another length")
    drop_privates(edited, committer)
    secrets, commit_secret = path_secrets(secret, len(pairs) - place)
    for (x, _), secret in zip(pairs[place:], secrets):
        take_key(edited.tree, edited.privates, x, secret)
    return commit_secret


def take_key(tree, privates, x, secret):
    private, public = node_key_pair(secret)
    if tree.nodes[x] is None or tree.nodes[x].encryption_key != public:
        raise Refused("a path secret is of another key")
    privates[x] = private


def check_held(tree, privates, leaf):
    """Whether a joiner has the key of each node above it that doesn't list it as unmerged, and of no other (4.2)."""
    for x in tree.direct_path(leaf):
        node = tree.nodes[x]
        if node is not None and (x in privates) == (leaf in node.unmerged_leaves):
            raise Refused("a joiner lacks a key, or has one that isn't due to it")


def next_state(state, edited, content, signature, commit_secret):
    """The state that a commit leads to. It has the confirmation tag that the commit has to have."""
    confirmed = confirmed_hash(state.interim, content, signature)
    context = replace(edited.context, confirmed_transcript_hash=confirmed)
    epoch = Epoch.after(state.epoch.init_secret, commit_secret, context)
    return State(context, edited.tree, state.leaf, edited.privates, epoch, epoch.confirmation_tag(confirmed))


class Outsider:
    """A client, and while it is in a group a member. A refusal changes nothing."""

    def __init__(self, identity, seed, extension_types=()):
        self.identity, self.capabilities = identity, Capabilities(extensions=tuple(extension_types))
        self.signature_private = derive_secret(seed, b"seed sign")
        self.leave()
        self.renew(seed)

    @staticmethod
    def of_keys(key_package, signature_private, leaf_private, init_private):
        """A client with a KeyPackage that was made elsewhere."""
        self = Outsider(key_package.leaf_node.identity, ZERO)
        self.capabilities, self.key_package = key_package.leaf_node.capabilities, key_package
        self.signature_private, self.leaf_private, self.init_private = signature_private, leaf_private, init_private
        return self

    def leave(self):
        self.state, self.kept, self.pending = None, {}, None

    # ---- key packages

    def leaf_node(self, public, source, index=0, **part):
        """An own leaf, signed (section 7.2)."""
        group_id = self.state.context.group_id if self.state else b""
        signature_key = signature_public(self.signature_private)
        leaf = LeafNode(public, signature_key, self.identity, self.capabilities, source, **part)
        content = leaf.signed_input(group_id, index)
        return signed(leaf, sign_with_label(self.signature_private, b"LeafNodeTBS", content))

    def renew(self, seed):
        """Makes another KeyPackage, with fresh keys but the signature key."""
        self.init_private, init_public = derive_key_pair(derive_secret(seed, b"seed init"))
        self.leaf_private, leaf_public = derive_key_pair(derive_secret(seed, b"seed leaf"))
        leaf = self.leaf_node(leaf_public, FROM_KEY_PACKAGE, lifetime=(0, LONGEST_LIFE))
        key_package = KeyPackage(init_public, leaf)
        content = key_package.write_unsigned()
        self.key_package = signed(key_package, sign_with_label(self.signature_private, b"KeyPackageTBS", content))

    def key_package_message(self):
        return write_message(self.key_package)

    # ---- beginnings

    def create(self, group_id, epoch_secret):
        """A group with this one member (section 11)."""
        tree, epoch = RatchetTree([self.key_package.leaf_node]), Epoch(epoch_secret)
        context = GroupContext(group_id, 0, tree.tree_hash(), b"")
        self.leave()
        self.state = State(context, tree, 0, {0: self.leaf_private}, epoch, epoch.confirmation_tag(b""))

    def join(self, message, tree_bytes=None):
        """Becomes a member by a Welcome (section 12.4.3.1). The tree may come beside it."""
        welcome = read_message(message, Welcome)
        secrets, info = self.open_welcome(welcome)
        found = [it.content for it in info.extensions if it.kind == RATCHET_TREE] or [tree_bytes]
        if found[0] is None:
            raise Refused("there is no ratchet tree")
        tree = RatchetTree.read(found[0])
        if tree.tree_hash() != info.context.tree_hash:
            raise Refused("the tree hash is another")
        tree.check(info.context.group_id)
        leaf = self.place_in(tree, info)
        privates = {2 * leaf: self.leaf_private}
        if secrets.path_secret is not None:
            self.take_path_secret(tree, privates, leaf, info.signer, secrets.path_secret)
        check_held(tree, privates, leaf)
        epoch = Epoch.of_joiner(secrets.joiner_secret, info.context)
        if not same(info.confirmation_tag, epoch.confirmation_tag(info.context.confirmed_transcript_hash)):
            raise Refused("the confirmation tag is wrong")
        self.leave()
        self.state = State(info.context, tree, leaf, privates, epoch, info.confirmation_tag)

    def open_welcome(self, welcome):
        reference, sealed_info = key_package_ref(self.key_package), welcome.encrypted_group_info
        entry = next((it for it in welcome.secrets if it.new_member == reference), None)
        if entry is None:
            raise Refused("the Welcome isn't for this client")
        opened = decrypt_with_label(self.init_private, b"Welcome", sealed_info, entry.encrypted_group_secrets)
        secrets = read_whole(GroupSecrets.read, opened)
        if any(len(it) != len(ZERO) for it in (secrets.joiner_secret, secrets.path_secret) if it is not None):
            raise Refused("a secret has another length")
        key, nonce = welcome_key_and_nonce(secrets.joiner_secret)
        return secrets, read_whole(GroupInfo.read, aead_open(key, nonce, sealed_info))

    def place_in(self, tree, info):
        """The own leaf in a joined tree, after a check of who signed the GroupInfo."""
        signer = tree.leaf(info.signer)
        if signer is None:
            raise Refused("the signer is no member")
        verify_with_label(signer.signature_key, b"GroupInfoTBS", info.write_unsigned(), info.signature)
        places = [index for index in tree.members() if tree.leaf(index) == self.key_package.leaf_node]
        if not places or places == [info.signer]:
            raise Refused("this client isn't in the tree, or signed itself")
        return places[0]

    @staticmethod
    def take_path_secret(tree, privates, leaf, signer, secret):
        """Takes the keys from the lowest common ancestor up. Blank nodes there are in no filtered path."""
        over = [x for x in tree.direct_path(leaf) if is_over(x, signer)]
        for x in over:
            if x == over[0] or tree.nodes[x] is not None:
                take_key(tree, privates, x, secret)
                secret = derive_secret(secret, b"path")

    # ---- proposals

    def propose(self, proposal, private=None):
        kept = Kept(self.state.leaf, proposal, private)
        check_proposal(self.state, kept)
        content = self.content(proposal, b"")
        message = self.public_message(content, AuthData(self.sign(content)))
        self.kept[proposal_ref(message)] = kept
        return write_message(message)

    def propose_add(self, key_package_message):
        return self.propose(Add(read_key_package(key_package_message)))

    def propose_update(self, seed):
        private, public = derive_key_pair(derive_secret(seed, b"seed leaf"))
        return self.propose(Update(self.leaf_node(public, FROM_UPDATE, self.state.leaf)), private)

    def propose_remove(self, leaf):
        return self.propose(Remove(leaf))

    def propose_extensions(self, extensions):
        return self.propose(GroupContextExtensions(tuple(extensions)))

    # ---- messages (section 6)

    def content(self, body, authenticated_data):
        context = self.state.context
        return FramedContent(context.group_id, context.epoch, self.state.leaf, authenticated_data, body)

    def sign(self, content):
        return sign_with_label(self.signature_private, b"FramedContentTBS", content.signed_input(self.state.context))

    def public_message(self, content, auth):
        tag = self.state.epoch.membership_tag(content, auth, self.state.context)
        return PublicMessage(content, auth, tag)

    def open_message(self, message):
        """A PublicMessage of this epoch, with its tag and its signature checked."""
        state, found = self.state, read_message(message, PublicMessage)
        content, auth = found.content, found.auth
        if (content.group_id, content.epoch) != (state.context.group_id, state.context.epoch):
            raise Refused("a message of another group or epoch")
        sender = state.tree.leaf(content.sender)
        if sender is None:
            raise Refused("the sender is no member")
        if not same(found.membership_tag, state.epoch.membership_tag(content, auth, state.context)):
            raise Refused("the membership tag is wrong")
        covered = content.signed_input(state.context)
        verify_with_label(sender.signature_key, b"FramedContentTBS", covered, auth.signature)
        return found

    # ---- commits

    def named(self, items, committer):
        """The proposals that a commit's list stands for."""
        found = []
        for item in items:
            if isinstance(item, InFull):
                found.append(Kept(committer, item.proposal))
            elif item.reference in self.kept:
                found.append(self.kept[item.reference])
            else:
                raise Refused("a reference is unknown")
        return found

    def commit(self, items, path, seed, authenticated_data=b""):
        """A commit of a list of ProposalOrRef, and its Welcome or None. The commit pends until it is processed."""
        if self.pending:
            raise Refused("a commit is pending")
        state = self.state
        edited = edit(state, self.named(items, state.leaf), state.leaf)
        numbers = count()

        def seal(public, label, context, plaintext):
            randomness = expand_with_label(seed, b"seed seal", uint(4, next(numbers)), 32)
            return encrypt_with_label(public, label, context, plaintext, randomness)

        made, secrets, commit_secret = None, {}, ZERO
        if path or edited.needs_path:
            made, secrets, commit_secret = self.make_path(edited, seed, seal)
        content = self.content(Commit(tuple(items), made), authenticated_data)
        signature = self.sign(content)
        after = next_state(state, edited, content, signature, commit_secret)
        message = write_message(self.public_message(content, AuthData(signature, after.confirmation_tag)))
        welcome = self.welcome(after, edited.added, secrets, seal) if edited.added else None
        self.pending = message, after
        return message, welcome

    def make_path(self, edited, seed, seal):
        """A path, its secrets by the nodes that they are of, and the commit secret (sections 7.4 to 7.6)."""
        tree, leaf = edited.tree, self.state.leaf
        pairs = tree.filtered_direct_path(leaf)
        secrets, commit_secret = path_secrets(derive_secret(seed, b"seed path"), len(pairs))
        node_keys = [node_key_pair(secret) for secret in secrets]
        private, public = derive_key_pair(derive_secret(seed, b"seed leaf"))
        parent_hash = tree.merge_path(leaf, [key for _, key in node_keys])
        leaf_node = self.leaf_node(public, FROM_COMMIT, leaf, parent_hash=parent_hash)
        tree.nodes[2 * leaf] = leaf_node
        edited.take_tree_hash()
        drop_privates(edited, leaf)
        edited.privates[2 * leaf] = private
        nodes, context = [], edited.context.write()
        for (x, child), secret, (node_private, node_public) in zip(pairs, secrets, node_keys):
            edited.privates[x] = node_private
            keys = [tree.nodes[y].encryption_key for y in edited.receivers(child)]
            sealed = tuple(seal(key, b"UpdatePathNode", context, secret) for key in keys)
            nodes.append(UpdatePathNode(node_public, sealed))
        by_node = {x: secret for (x, _), secret in zip(pairs, secrets)}
        return UpdatePath(leaf_node, tuple(nodes)), by_node, commit_secret

    def welcome(self, after, added, secrets, seal):
        """The Welcome to those who were added (section 12.4.3). `secrets` are a path's, by node."""
        tree_extension = Extension(RATCHET_TREE, after.tree.write())
        info = GroupInfo(after.context, (tree_extension,), after.confirmation_tag, after.leaf)
        info = signed(info, sign_with_label(self.signature_private, b"GroupInfoTBS", info.write_unsigned()))
        joiner_secret = after.epoch.joiner_secret
        sealed_info = aead_seal(*welcome_key_and_nonce(joiner_secret), info.write())
        entries = []
        for index, key_package in added:
            over = next(x for x in after.tree.direct_path(index) if is_over(x, after.leaf))
            group_secrets = GroupSecrets(joiner_secret, secrets.get(over)).write()
            sealed = seal(key_package.init_key, b"Welcome", sealed_info, group_secrets)
            entries.append(EncryptedGroupSecrets(key_package_ref(key_package), sealed))
        return write_message(Welcome(tuple(entries), sealed_info))

    def drop_pending(self):
        self.pending = None

    # ---- what comes in

    def process(self, message):
        """Takes a message, and answers "proposed", "known", "advanced" or "removed"."""
        if self.state is None:
            raise Refused("no member")
        if self.pending and message == self.pending[0]:
            return self.advance(self.pending[1])
        found = self.open_message(message)
        content = found.content
        if isinstance(content.body, bytes):
            raise Unsupported("application data")
        if isinstance(content.body, Commit):
            return self.follow(content, found.auth)
        reference = proposal_ref(found)
        if reference in self.kept:
            return "known"
        self.refuse_own(content)
        kept = Kept(content.sender, content.body)
        check_proposal(self.state, kept)
        self.kept[reference] = kept
        return "proposed"

    def refuse_own(self, content):
        if content.sender == self.state.leaf:
            raise Refused("an own message that isn't kept")

    def follow(self, content, auth):
        """Takes another's commit (section 12.4.2)."""
        self.refuse_own(content)
        state, committer, path = self.state, content.sender, content.body.path
        edited = edit(state, self.named(content.body.proposals, committer), committer)
        if path is None and edited.needs_path:
            raise Refused("a path is missing")
        pairs = merge(state, edited, committer, path) if path else []
        if state.leaf in edited.removed:
            self.leave()
            return "removed"
        commit_secret = open_path(state, edited, committer, path, pairs) if path else ZERO
        after = next_state(state, edited, content, auth.signature, commit_secret)
        if not same(after.confirmation_tag, auth.confirmation_tag):
            raise Refused("the confirmation tag is wrong")
        return self.advance(after)

    def advance(self, after):
        self.leave()
        self.state = after
        return "advanced"

    # ---- for comparison

    def secrets(self):
        """Each secret of the epoch by its name."""
        return self.state.epoch.all()

    def export(self, label, context, length):
        return self.state.epoch.export(label, context, length)
