"""Holds the outsider against test vectors of the MLS working group's kind, for suite 1: key-schedule.json and
passive-client-*.json. No such file came with this repository, and this code was never run on a real one.

A vector that asks for more than the profile (pre-shared keys, PrivateMessages, other proposals or credentials) is
skipped.
"""
import json
import pathlib

from .crypto import HASH_LENGTH, encryption_public, expand_with_label, extract, signature_public
from .group import Outsider, read_key_package
from .schedule import LABELS, Epoch, welcome_secret
from .wire import SUITE, GroupContext, Refused, Unsupported

unhex = bytes.fromhex


def expect(what, got, wanted):
    if got != unhex(wanted):
        raise Refused(f"{what} is {got.hex()}, not {wanted}")


def key_schedule(vector):
    init_secret = unhex(vector["initial_init_secret"])
    for number, it in enumerate(vector["epochs"]):
        hashes = unhex(it["tree_hash"]), unhex(it["confirmed_transcript_hash"])
        context, psk_secret = GroupContext(unhex(vector["group_id"]), number, *hashes), unhex(it["psk_secret"])
        joined = extract(init_secret, unhex(it["commit_secret"]))
        joiner_secret = expand_with_label(joined, b"joiner", context.write(), HASH_LENGTH)
        epoch = Epoch.of_joiner(joiner_secret, context, psk_secret)
        expect("group_context", context.write(), it["group_context"])
        expect("joiner_secret", joiner_secret, it["joiner_secret"])
        expect("welcome_secret", welcome_secret(joiner_secret, psk_secret), it["welcome_secret"])
        for name in LABELS:
            expect(name, epoch.all()[name], it[name])
        expect("external_pub", epoch.external_public(), it["external_pub"])
        asked = it["exporter"]
        secret = epoch.export(asked["label"].encode(), unhex(asked["context"]), asked["length"])
        expect("exporter", secret, asked["secret"])
        init_secret = epoch.init_secret


def passive_client(vector):
    if vector.get("external_psks"):
        raise Unsupported("pre-shared keys")
    key_package = read_key_package(unhex(vector["key_package"]))
    privates = [unhex(vector[name])[:32] for name in ("signature_priv", "encryption_priv", "init_priv")]
    leaf = key_package.leaf_node
    publics = [signature_public(privates[0]), encryption_public(privates[1]), encryption_public(privates[2])]
    if publics != [leaf.signature_key, leaf.encryption_key, key_package.init_key]:
        raise Refused("the private keys are of other public keys")
    client = Outsider.of_keys(key_package, *privates)
    tree = vector.get("ratchet_tree")
    client.join(unhex(vector["welcome"]), unhex(tree) if tree else None)
    expect("authenticator", client.secrets()["epoch_authenticator"], vector["initial_epoch_authenticator"])
    for it in vector["epochs"]:
        for message in it["proposals"]:
            client.process(unhex(message))
        if client.process(unhex(it["commit"])) != "advanced":
            raise Refused("a commit doesn't advance")
        expect("authenticator", client.secrets()["epoch_authenticator"], it["epoch_authenticator"])


def check_file(path, check):
    """Prints what fails, and answers how many vectors passed, failed and were skipped."""
    passed = failed = skipped = 0
    for number, vector in enumerate(json.loads(path.read_text())):
        if vector["cipher_suite"] != SUITE:
            continue
        try:
            check(vector)
            passed += 1
        except Unsupported as why:
            skipped += 1
            print(f"{path.name} {number}: skipped: {why}")
        except (Refused, KeyError) as why:
            failed += 1
            print(f"{path.name} {number}: failed: {why!r}")
    print(f"{path.name}: {passed} passed, {failed} failed, {skipped} skipped")
    return passed, failed, skipped


def check_folder(folder):
    files = {"key-schedule.json": key_schedule}
    for path in sorted(pathlib.Path(folder).glob("passive-client-*.json")):
        files[path.name] = passive_client
    found = [(pathlib.Path(folder, name), check) for name, check in files.items()]
    results = [check_file(path, check) for path, check in found if path.exists()]
    return tuple(map(sum, zip(*results))) if results else (0, 0, 0)
