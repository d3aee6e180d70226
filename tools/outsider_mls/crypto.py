"""The primitives of cipher suite 0x0001, and their labelled uses (RFC 9420, sections 5.1, 5.2 and 8; RFC 9180)."""
import hashlib
import hmac

from cryptography.exceptions import InvalidSignature, InvalidTag
from cryptography.hazmat.primitives.asymmetric.ed25519 import Ed25519PrivateKey, Ed25519PublicKey
from cryptography.hazmat.primitives.asymmetric.x25519 import X25519PrivateKey, X25519PublicKey
from cryptography.hazmat.primitives.ciphers.aead import AESGCM
from cryptography.hazmat.primitives.serialization import Encoding, PublicFormat

from .wire import Ciphertext, Refused, opaque, uint

HASH_LENGTH, KEY_LENGTH, NONCE_LENGTH = 32, 16, 12
ZERO = bytes(HASH_LENGTH)


# ---- SHA-256, HMAC, HKDF


def hash_of(*parts):
    return hashlib.sha256(b"".join(parts)).digest()


def mac(key, content):
    return hmac.new(key, content, hashlib.sha256).digest()


def same(a, b):
    return hmac.compare_digest(a, b)


def extract(salt, ikm):
    return mac(salt, ikm)


def expand(prk, info, length):
    block = out = b""
    count = 0
    while len(out) < length:
        count += 1
        block = mac(prk, block + info + uint(1, count))
        out += block
    return out[:length]


# ---- labels of MLS


def full(label):
    return opaque(b"MLS 1.0 " + label)


def expand_with_label(secret, label, context, length):
    return expand(secret, uint(2, length) + full(label) + opaque(context), length)


def derive_secret(secret, label):
    return expand_with_label(secret, label, b"", HASH_LENGTH)


def ref_hash(label, value):
    """RefHash. Its labels begin with "MLS 1.0 " as they are, and nothing is put before them."""
    return hash_of(opaque(label), opaque(value))


def key_package_ref(key_package):
    return ref_hash(b"MLS 1.0 KeyPackage Reference", key_package.write())


def proposal_ref(message):
    return ref_hash(b"MLS 1.0 Proposal Reference", message.write_authenticated())


# ---- Ed25519


def raw(public_key):
    return public_key.public_bytes(Encoding.Raw, PublicFormat.Raw)


def signature_public(private):
    return raw(Ed25519PrivateKey.from_private_bytes(private).public_key())


def sign_with_label(private, label, content):
    return Ed25519PrivateKey.from_private_bytes(private).sign(full(label) + opaque(content))


def verify_with_label(public, label, content, signature):
    try:
        Ed25519PublicKey.from_public_bytes(public).verify(signature, full(label) + opaque(content))
    except (InvalidSignature, ValueError):
        raise Refused(f"a signature of {label.decode()} doesn't verify") from None


# ---- AES-128-GCM


def aead_seal(key, nonce, plaintext, additional=b""):
    return AESGCM(key).encrypt(nonce, plaintext, additional)


def aead_open(key, nonce, ciphertext, additional=b""):
    try:
        return AESGCM(key).decrypt(nonce, ciphertext, additional)
    except (InvalidTag, ValueError):
        raise Refused("a ciphertext doesn't open") from None


# ---- HPKE, base mode: DHKEM(X25519, HKDF-SHA256), HKDF-SHA256, AES-128-GCM

KEM_ID = b"KEM" + uint(2, 0x0020)
HPKE_ID = b"HPKE" + uint(2, 0x0020) + uint(2, 0x0001) + uint(2, 0x0001)


def labeled_extract(suite_id, salt, label, ikm):
    return extract(salt, b"HPKE-v1" + suite_id + label + ikm)


def labeled_expand(suite_id, prk, label, info, length):
    return expand(prk, uint(2, length) + b"HPKE-v1" + suite_id + label + info, length)


def encryption_public(private):
    return raw(X25519PrivateKey.from_private_bytes(private).public_key())


def derive_key_pair(ikm):
    """DeriveKeyPair: the private key, and the public key."""
    prk = labeled_extract(KEM_ID, b"", b"dkp_prk", ikm)
    private = labeled_expand(KEM_ID, prk, b"sk", b"", 32)
    return private, encryption_public(private)


def shared_point(private, public):
    """The Diffie-Hellman value. It is refused where it is 0, or where the public key has no 32 bytes."""
    try:
        return X25519PrivateKey.from_private_bytes(private).exchange(X25519PublicKey.from_public_bytes(public))
    except ValueError:
        raise Refused("a public key isn't fit for sealing") from None


def check_encryption_key(public):
    shared_point(bytes(32), public)


def shared_secret(point, kem_output, public):
    prk = labeled_extract(KEM_ID, b"", b"eae_prk", point)
    return labeled_expand(KEM_ID, prk, b"shared_secret", kem_output + public, 32)


def key_and_nonce(secret, info):
    """KeySchedule of mode_base: what the first and only message is sealed under."""
    psk_id_hash = labeled_extract(HPKE_ID, b"", b"psk_id_hash", b"")
    info_hash = labeled_extract(HPKE_ID, b"", b"info_hash", info)
    context = b"\0" + psk_id_hash + info_hash
    start = labeled_extract(HPKE_ID, secret, b"secret", b"")
    key = labeled_expand(HPKE_ID, start, b"key", context, KEY_LENGTH)
    return key, labeled_expand(HPKE_ID, start, b"base_nonce", context, NONCE_LENGTH)


def hpke_seal(public, info, plaintext, randomness):
    """SealBase with no additional data. The ephemeral key pair is derived from the randomness."""
    ephemeral, kem_output = derive_key_pair(randomness)
    secret = shared_secret(shared_point(ephemeral, public), kem_output, public)
    key, nonce = key_and_nonce(secret, info)
    return Ciphertext(kem_output, aead_seal(key, nonce, plaintext))


def hpke_open(private, info, sealed):
    """OpenBase with no additional data."""
    point = shared_point(private, sealed.kem_output)
    secret = shared_secret(point, sealed.kem_output, encryption_public(private))
    key, nonce = key_and_nonce(secret, info)
    return aead_open(key, nonce, sealed.ciphertext)


def encrypt_with_label(public, label, context, plaintext, randomness):
    return hpke_seal(public, full(label) + opaque(context), plaintext, randomness)


def decrypt_with_label(private, label, context, sealed):
    return hpke_open(private, full(label) + opaque(context), sealed)
