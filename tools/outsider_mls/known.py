"""Rows that the standards of the primitives publish, so that the outsider stands on more than on itself."""
from .crypto import (derive_key_pair, encryption_public, expand, extract, hash_of, key_and_nonce, shared_point,
                     shared_secret, signature_public)
from .wire import header

unhex = bytes.fromhex


def rows():
    """Triples of what a row is of, what the outsider answers, and what is published."""
    yield "FIPS 180-4", hash_of(b"abc"), "ba7816bf8f01cfea414140de5dae2223b00361a396177a9cb410ff61f20015ad"
    prk = extract(bytes(range(13)), b"\x0b" * 22)
    yield "RFC 5869, A.1: PRK", prk, "077709362c2e32df0ddc3f0dc47bba6390b6c73bb50f9c3122ec844ad7c2b3e5"
    okm = "3cb25f25faacd57a90434f64d0362f2a2d2d0a90cf1a5a4c5db02d56ecc4c5bf34007208d5b887185865"
    yield "RFC 5869, A.1: OKM", expand(prk, bytes(range(0xF0, 0xFA)), 42), okm
    public = signature_public(unhex("9d61b19deffd5a60ba844af492ec2cc44449c5697b326919703bac031cae7f60"))
    yield "RFC 8032, 7.1", public, "d75a980182b10ab7d54bfed3c964073a0ee172f3daa62325af021a68f707511a"
    yield from rows_of_hpke()
    headers = b"".join(map(header, (0, 63, 64, 16383, 16384, 2**30 - 1)))
    yield "headers of vectors", headers, "003f40407fff80004000bfffffff"


def rows_of_hpke():
    """RFC 9180, A.1.1."""
    ephemeral, kem_output = derive_key_pair(unhex("7268600d403fce431561aef583ee1613527cff655c1343f29812e66706df3234"))
    yield "HPKE: skEm", ephemeral, "52c4a758a802cd8b936eceea314432798d5baf2d7e9235dc084ab1b9cfa2f736"
    yield "HPKE: enc", kem_output, "37fda3567bdbd628e88668c3c8d7e97d1d1253b6d4ea6d44c150f741f1bf4431"
    private, public = derive_key_pair(unhex("6db9df30aa07dd42ee5e8181afdb977e538f5e1fec8a06223f33f7013e525037"))
    yield "HPKE: pkRm", public, "3948cfe0ad1ddb695d780e59077195da6c56506b027329794ab02bca80815c4d"
    secret = shared_secret(shared_point(private, kem_output), kem_output, encryption_public(private))
    yield "HPKE: shared_secret", secret, "fe0e18c9f024ce43799ae393c7e8fe8fce9d218875e8227b0187c04e7d2ea1fc"
    key, nonce = key_and_nonce(secret, b"Ode on a Grecian Urn")
    yield "HPKE: key", key, "4531685d41d65f03dc48f6b8302c05b0"
    yield "HPKE: base_nonce", nonce, "56d890e5accaaf011cff4b7d"


def check_rows():
    """Whether all rows are as published. It prints a line."""
    wrong = [name for name, got, wanted in rows() if got.hex() != wanted]
    print(f"published rows: {'wrong: ' + ', '.join(wrong) if wrong else 'ok'}", flush=True)
    return not wrong
