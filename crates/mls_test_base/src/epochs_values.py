#!/usr/bin/env python3
"""The values of epochs.rt, computed with hashlib and hmac alone (RFC 9420, sections 8, 8.2 and 8.5).

    python3 epochs_values.py             prints the digits of each value
    python3 epochs_values.py epochs.rt   says which of them epochs.rt lacks
"""

import hashlib
import hmac
import sys


def sha256(data):
    return hashlib.sha256(data).digest()


def tag(key, data):
    return hmac.new(key, data, hashlib.sha256).digest()


def opaque(content):
    """The content behind its length header (section 2.1.2)."""
    n = len(content)
    if n < 64:
        return bytes([n]) + content
    if n < 16384:
        return (0x4000 + n).to_bytes(2, "big") + content
    return (0x80000000 + n).to_bytes(4, "big") + content


def extract(salt, ikm):
    return tag(salt, ikm)


def expand(prk, info, n):
    out, block, i = b"", b"", 0
    while len(out) < n:
        i += 1
        block = tag(prk, block + info + bytes([i]))
        out += block
    return out[:n]


def expand_with_label(secret, label, context, n):
    info = n.to_bytes(2, "big") + opaque(b"MLS 1.0 " + label) + opaque(context)
    return expand(secret, info, n)


def derive_secret(secret, label):
    return expand_with_label(secret, label, b"", 32)


NINE = [
    b"sender data",
    b"encryption",
    b"exporter",
    b"external",
    b"confirm",
    b"membership",
    b"resumption",
    b"authentication",
    b"init",
]


def nine(epoch):
    return [derive_secret(epoch, label) for label in NINE]


def next_epoch(init, commit_secret, context):
    """The joiner, the welcome and the epoch secret, and the key and the nonce of a Welcome."""
    joiner = expand_with_label(extract(init, commit_secret), b"joiner", context, 32)
    intermediate = extract(joiner, bytes(32))
    welcome = derive_secret(intermediate, b"welcome")
    epoch = expand_with_label(intermediate, b"epoch", context, 32)
    key = expand_with_label(welcome, b"key", b"", 16)
    nonce = expand_with_label(welcome, b"nonce", b"", 12)
    return joiner, welcome, epoch, key, nonce


def confirmation_tag(epoch, confirmed):
    return tag(derive_secret(epoch, b"confirm"), confirmed)


def membership_tag(epoch, said):
    return tag(derive_secret(epoch, b"membership"), said)


def confirmed_hash(interim, wire_format, content, signature):
    return sha256(interim + wire_format.to_bytes(2, "big") + content + opaque(signature))


def interim_hash(confirmed, confirmation):
    return sha256(confirmed + opaque(confirmation))


def exported(epoch, label, context, n):
    secret = derive_secret(derive_secret(epoch, b"exporter"), label)
    return expand_with_label(secret, b"exported", sha256(context), n)


def values():
    """Each name with its value."""
    # epoch 0, from the seed of 32 bytes 7
    seed = bytes([7] * 32)
    for label, secret in zip(NINE, nine(seed)):
        yield "epoch 0: " + label.decode(), secret
    first_tag = confirmation_tag(seed, b"")
    yield "epoch 0: tag", first_tag
    yield "epoch 0: membership tag", membership_tag(seed, b"what is said")
    first_interim = interim_hash(b"", first_tag)
    yield "epoch 0: interim hash", first_interim

    # epochs 1 to 3; a commit secret of zeros, and contexts of 49, 0 and 70 bytes
    context = bytes.fromhex("0001f00101670000000000000000" + "20" + "11" * 32 + "0000")
    rows = [(bytes(32), context), (bytes([9] * 32), b""), (bytes([1] * 32), bytes([5] * 70))]
    # what is said in them: FramedContent, signature
    said = [(b"content", b"signature"), (b"", b""), (bytes([3] * 70), bytes([4] * 64))]
    init, interim = nine(seed)[8], first_interim
    for k, ((commit_secret, ctx), (content, signature)) in enumerate(zip(rows, said), 1):
        joiner, welcome, epoch, key, nonce = next_epoch(init, commit_secret, ctx)
        confirmed = confirmed_hash(interim, 1, content, signature)
        confirmation = confirmation_tag(epoch, confirmed)
        interim = interim_hash(confirmed, confirmation)
        init = nine(epoch)[8]
        yield f"epoch {k}: joiner", joiner
        yield f"epoch {k}: welcome", welcome
        yield f"epoch {k}: epoch", epoch
        yield f"epoch {k}: hash of the nine", sha256(b"".join(nine(epoch)))
        yield f"epoch {k}: key", key
        yield f"epoch {k}: nonce", nonce
        yield f"epoch {k}: confirmed hash", confirmed
        yield f"epoch {k}: tag", confirmation
        yield f"epoch {k}: interim hash", interim

    # an outside GroupInfo: a confirmed hash of 5 bytes, a tag of 70
    yield "outside: interim hash", interim_hash(b"\x01\x02\x03\x04\x05", bytes([6] * 70))

    # exports of epoch 0
    yield "export of 16", exported(seed, b"label", b"context", 16)
    yield "export of 40", exported(seed, b"", b"", 40)
    yield "hash of the export of 8160", sha256(exported(seed, b"label", b"context", 8160))


def main():
    if len(sys.argv) < 2:
        for name, value in values():
            print(f"// {name}")
            print(value.hex())
        return
    text = open(sys.argv[1]).read()
    missing = [
        name
        for name, value in values()
        if f'"{value.hex()}"' not in text
    ]
    for name in missing:
        print("missing:", name)
    sys.exit(1 if missing else 0)


main()
