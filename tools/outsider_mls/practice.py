"""The practice suite of docs/SUITES.md in the place of cipher suite 0x0001, on hashlib and hmac alone.

`install()` is to be called before any other module of the package but `crypto` and `wire` is imported: they take the
functions of `crypto` by name.
"""
from . import crypto, wire
from .crypto import full, hash_of, mac, same
from .wire import Ciphertext, Refused, opaque, uint

NUMBER = 0xF001


def box(key, text):
    """The text combined with the stream of the key, and its tag."""
    stream = b"".join(mac(key, b"s" + uint(4, block)) for block in range(len(text) // 32 + 1))
    body = bytes(x ^ y for x, y in zip(text, stream))
    return body + mac(key, b"t" + body)


def open_box(key, sealed):
    body, tag = sealed[:-32], sealed[-32:]
    if len(sealed) < 32 or not same(tag, mac(key, b"t" + body)):
        raise Refused("a ciphertext doesn't open")
    return box(key, body)[: len(body)]


def aead_key(key, nonce, additional):
    return mac(key, b"glass aead" + nonce + additional)


def aead_seal(key, nonce, plaintext, additional=b""):
    return box(aead_key(key, nonce, additional), plaintext)


def aead_open(key, nonce, ciphertext, additional=b""):
    return open_box(aead_key(key, nonce, additional), ciphertext)


def encryption_public(private):
    return hash_of(b"glass public", private)


def derive_key_pair(ikm):
    private = hash_of(b"glass key", ikm)
    return private, encryption_public(private)


def check_encryption_key(public):
    if len(public) != 32:
        raise Refused("a public key isn't fit for sealing")


def hpke_seal(public, info, plaintext, randomness):
    kem_output = hash_of(b"glass enc", randomness)
    return Ciphertext(kem_output, box(mac(public, b"glass kem" + kem_output + info), plaintext))


def hpke_open(private, info, sealed):
    key = mac(encryption_public(private), b"glass kem" + sealed.kem_output + info)
    return open_box(key, sealed.ciphertext)


def signature_public(private):
    return hash_of(b"glass sig", private)


def sign_with_label(private, label, content):
    return mac(signature_public(private), full(label) + opaque(content))


def verify_with_label(public, label, content, signature):
    if not same(signature, mac(public, full(label) + opaque(content))):
        raise Refused(f"a signature of {label.decode()} doesn't verify")


def install():
    wire.SUITE = NUMBER
    fields = wire.Capabilities.__init__
    fields.__defaults__ = tuple((NUMBER,) if it == (0x0001,) and place == 1 else it
                                for place, it in enumerate(fields.__defaults__))
    for of_suite in (aead_seal, aead_open, encryption_public, derive_key_pair, check_encryption_key, hpke_seal, hpke_open,
                     signature_public, sign_with_label, verify_with_label):
        setattr(crypto, of_suite.__name__, of_suite)
