"""Calls of the library for C of which the examples show nothing: it ends with status 1 at the first that goes wrong."""
import importlib.util
import os
import sys

TOP = os.path.dirname(os.path.dirname(os.path.dirname(os.path.realpath(__file__))))
MODULE = importlib.util.spec_from_file_location("mls", f"{TOP}/examples/python/mls.py")
mls = importlib.util.module_from_spec(MODULE)
MODULE.loader.exec_module(mls)


def seed(number):
    return bytes([number] * 32)


def refusal_of(call, *words):
    """The number that a call is refused with, or 0."""
    try:
        call(*words)
    except mls.Refused as refused:
        return refused.number
    return 0


def overflows(call, number):
    """Whether a call takes no such number."""
    try:
        call(number)
    except OverflowError:
        return True
    return False


def wrong(what):
    print(what)
    sys.exit(1)


def hold(what, is_right):
    if not is_right:
        wrong(what)


def pair():
    """Two members of one group."""
    hers, his = mls.Candidate.new(b"alice", seed(1)), mls.Candidate.new(b"bob", seed(2))
    alice = mls.Member.create(hers, b"group", seed(3))
    identity, key = mls.identity_of(his.key_package())
    hold("the identity of a KeyPackage", (identity, len(key)) == (b"bob", 32))
    update = alice.propose_update(seed(4))
    hold("a message without a KeyPackage", refusal_of(mls.identity_of, update) == 134)
    hold("the place of a message", mls.place_of(update) == (mls.Member, b"group", 0))
    hold("a message of no group", refusal_of(mls.place_of, his.key_package()) == 7)
    commit, welcome = alice.commit([mls.addition(his.key_package())], seed(5))
    alice.process(commit)
    bob = mls.Member.join(his, welcome)
    hold("the key of a KeyPackage", list(alice.members())[1] == (1, b"bob", key))
    return alice, bob


def try_kept(alice, bob):
    """Kept proposals: their references, and how they are forgotten."""
    update = bob.propose_update(seed(6))
    hold("a proposal that isn't kept", alice.reference_of(update) is None)
    alice.process(update)
    reference = alice.reference_of(update)
    hold("one reference of a proposal", reference == bob.reference_of(update) and len(reference) == 32)
    hold("a proposal is forgotten", alice.forget_proposal(reference) and alice.reference_of(update) is None)
    hold("a proposal is forgotten once", not alice.forget_proposal(reference))
    hold("a forgotten proposal isn't committed", refusal_of(alice.commit, [mls.kept(reference)], seed(7)) == 60)
    hold("a forgotten proposal comes again", alice.process(update) == "proposed")
    commit, _ = alice.commit([mls.kept(reference)], seed(7))
    lacking = mls.Member.load(bob.save())
    lacking.forget_proposal(reference)
    hold("what a commit names", (bob.missing_proposals(commit), lacking.missing_proposals(commit)) == ([], [reference]))
    hold("what is no message", refusal_of(bob.missing_proposals, b"") == 2)
    hold("none is asked for", lacking.missing_proposals(commit, most=0) == [])
    hold("no number of C", overflows(bob.propose_remove, 2**64) and overflows(bob.propose_remove, -1))
    hold("nothing is forgotten under a pending commit", refusal_of(alice.forget_proposal, reference) == 67)
    hold("what is refused changes nothing", alice.reference_of(update) == reference)
    return commit


def try_pending(alice, bob, commit):
    """A pending commit: its message, and what it would do."""
    hold("the message of a pending commit", alice.pending_commit == commit == mls.Member.load(alice.save()).pending_commit)
    effect, after = bob.inspect(commit)
    hold("an inspected commit", (effect, after.epoch, bob.epoch) == ("advanced", bob.epoch + 1, 1))
    before = [key for _, _, key in bob.members()]
    hold("an inspected group", [key for _, _, key in after.members()] == before)
    alice.process(commit)
    bob.process(commit)
    hold("no pending commit", alice.pending_commit is None and not alice.drop_pending())
    hold("an inspected state", after.export("a", b"", 8) == bob.export("a", b"", 8))


def try_extensions(alice, bob):
    """The extensions of a group."""
    listed = bytes([4, 0xF0, 1, 1, 7])
    hold("a group without extensions", alice.extensions == b"\0")
    bob.process(alice.propose_extensions(listed))
    commit, _ = alice.commit_kept(seed(8))
    alice.process(commit)
    bob.process(commit)
    hold("the extensions of a group", alice.extensions == bob.extensions == listed)


def try_no_saves(loaded, saved, member):
    """Bytes that no conversation was saved as: one that is to go on with them stays as it is."""
    cut = {refusal_of(loaded.restore, saved[:length]) for length in range(len(saved))}
    hold("truncated bytes of a conversation", cut <= set(range(2, 8)))
    hold("more bytes than a conversation's", refusal_of(loaded.restore, saved + b"\0") == 3)
    hold("the bytes of a member", refusal_of(loaded.restore, member) == 7)


def try_other_conversations(alice, bob, saved):
    """Conversations that don't go on with what one was saved as: of another group, member or epoch, or with a used key."""
    other = mls.Member.create(mls.Candidate.new(b"carol", seed(11)), b"other", seed(12))
    hold("a conversation of another group", refusal_of(other.conversation().restore, saved) == 111)
    hold("a conversation of another member", refusal_of(bob.conversation().restore, saved) == 7)
    hers = alice.conversation()
    hers.restore(saved)
    hold("a conversation that used a key", refusal_of(hers.restore, saved) == 116)
    commit, _ = alice.commit_kept(seed(16))
    alice.process(commit)
    hold("a conversation of another epoch", refusal_of(alice.conversation().restore, saved) == 112)


def try_restored(alice, bob):
    """A conversation that is saved in its epoch goes on in it, once its member is loaded."""
    hers, his = alice.conversation(), bob.conversation()
    fresh = b"\0\3\5group" + alice.epoch.to_bytes(8, "big") + alice.leaf_index.to_bytes(4, "big") + b"\1\0\x20"
    hold("the form of a conversation", hers.save()[:-32] == fresh)
    first = hers.seal(b"first", seed(13))
    saved, member = hers.save(), alice.save()
    alice = mls.Member.load(member)
    loaded = alice.conversation()
    try_no_saves(loaded, saved, member)
    loaded.restore(saved)
    hold("a restored conversation", loaded.save() == saved)
    second = loaded.seal(b"second", seed(14))
    heard = [his.open(it)[0] for it in (second, first)]
    hold("what was sealed before and after", heard == [b"second", b"first"])
    hold("a message that comes twice", refusal_of(his.open, first) == 116)
    again = mls.Member.load(bob.save()).conversation()
    again.restore(his.save())
    hold("a message that comes after a load too", refusal_of(again.open, second) == 116)
    repeated = alice.conversation().seal(b"first", seed(15))
    hold("a key of a conversation that wasn't restored", refusal_of(again.open, repeated) == 116)
    try_other_conversations(alice, bob, saved)


def try_senders(alice, bob):
    """Who sent a message of an epoch that the group has left."""
    hers, his = alice.conversation(), bob.conversation()
    late = his.seal(b"late", seed(9))
    hold("the place of what was sealed", mls.place_of(late) == (mls.Conversation, b"group", 3))
    commit, _ = alice.commit([mls.removal(1)], seed(10))
    alice.process(commit)
    hold("a removal", bob.inspect(commit)[0] == "removed" and bob.process(commit) == "removed")
    data, _, sender = hers.open(late)
    hold("a late message", (data, hers.member_at(sender)[0]) == (b"late", b"bob"))
    hold("a leaf without a member", refusal_of(hers.member_at, 2) == 22)
    hold("the group has gone on", [name for _, name, _ in alice.members()] == [b"alice"])


def try_words(alice):
    """What is no bytes is no argument."""
    for word in ("text", None, 7):
        try:
            alice.process(word)
        except TypeError:
            continue
        wrong(f"{word!r} was taken for bytes")


def main():
    alice, bob = pair()
    commit = try_kept(alice, bob)
    try_pending(alice, bob, commit)
    try_extensions(alice, bob)
    try_words(alice)
    try_senders(alice, bob)
    try_restored(*pair())


if __name__ == "__main__":
    main()
