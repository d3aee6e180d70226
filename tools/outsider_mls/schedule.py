"""The key schedule, the transcript hashes and the exporter (RFC 9420, sections 8 and 6.1)."""
from .crypto import (HASH_LENGTH, KEY_LENGTH, NONCE_LENGTH, ZERO, derive_key_pair, derive_secret, expand_with_label,
                     extract, hash_of, mac)
from .wire import PUBLIC_MESSAGE, opaque, uint

LABELS = {
    "sender_data_secret": b"sender data",
    "encryption_secret": b"encryption",
    "exporter_secret": b"exporter",
    "external_secret": b"external",
    "confirmation_key": b"confirm",
    "membership_key": b"membership",
    "resumption_psk": b"resumption",
    "epoch_authenticator": b"authentication",
    "init_secret": b"init",
}


class Epoch:
    """The secrets of one epoch. Where the epoch is made from an epoch secret alone, it has no joiner secret."""

    def __init__(self, epoch_secret, joiner_secret=None):
        self.epoch_secret, self.joiner_secret = epoch_secret, joiner_secret
        for name, label in LABELS.items():
            setattr(self, name, derive_secret(epoch_secret, label))

    @staticmethod
    def after(init_secret, commit_secret, context):
        """The epoch with that GroupContext, which a commit begins."""
        joined = extract(init_secret, commit_secret)
        return Epoch.of_joiner(expand_with_label(joined, b"joiner", context.write(), HASH_LENGTH), context)

    @staticmethod
    def of_joiner(joiner_secret, context, psk_secret=ZERO):
        member = member_secret(joiner_secret, psk_secret)
        return Epoch(expand_with_label(member, b"epoch", context.write(), HASH_LENGTH), joiner_secret)

    def confirmation_tag(self, confirmed):
        return mac(self.confirmation_key, confirmed)

    def membership_tag(self, content, auth, context):
        """The MAC of AuthenticatedContentTBM (section 6.2)."""
        return mac(self.membership_key, content.signed_input(context) + auth.write())

    def external_public(self):
        return derive_key_pair(self.external_secret)[1]

    def export(self, label, context, length):
        secret = derive_secret(self.exporter_secret, label)
        return expand_with_label(secret, b"exported", hash_of(context), length)

    def all(self):
        """Each secret of the epoch by its name."""
        return {"epoch_secret": self.epoch_secret, **{name: getattr(self, name) for name in LABELS}}


def member_secret(joiner_secret, psk_secret=ZERO):
    return extract(joiner_secret, psk_secret)


def welcome_secret(joiner_secret, psk_secret=ZERO):
    return derive_secret(member_secret(joiner_secret, psk_secret), b"welcome")


def welcome_key_and_nonce(joiner_secret):
    secret = welcome_secret(joiner_secret)
    key = expand_with_label(secret, b"key", b"", KEY_LENGTH)
    return key, expand_with_label(secret, b"nonce", b"", NONCE_LENGTH)


def confirmed_hash(interim, content, signature):
    """The confirmed transcript hash that a commit's content and signature make (section 8.2)."""
    return hash_of(interim, uint(2, PUBLIC_MESSAGE), content.write(), opaque(signature))


def interim_hash(confirmed, confirmation_tag):
    return hash_of(confirmed, opaque(confirmation_tag))
