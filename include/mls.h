/* A library for Messaging Layer Security (RFC 9420) under cipher suite 0x0001.
 *
 * A handle points to what the library made; only the library looks into it, and mls_free frees it, without wiping it. One
 * thread at a time uses a handle, and none after its free. A member, what mls_member_inspect made of it, and the
 * conversations of both share memory: of these one thread at a time uses or frees any. Bytes go in as a pointer and a
 * length, and the library copies them; they come out as a handle of bytes. A seed is 32 random bytes, used once.
 *
 * Each call answers 0, or the number of a refusal, as docs/REFUSALS.md lists them (`mls --explain` tells of those below
 * 120): then its handle holds what it held before, and the handles that it would write are null, the number 0. A place to
 * write to may be null, where what comes there isn't wanted; any other is aligned, and apart from all else. Whatever bytes
 * come, no call ends the process.
 */
#ifndef MLS_H
#define MLS_H

#include <stddef.h>
#include <stdint.h>

#ifdef __cplusplus
extern "C" {
#endif

typedef struct mls_bytes mls_bytes;
typedef struct mls_candidate mls_candidate;
typedef struct mls_member mls_member;
typedef struct mls_conversation mls_conversation;

/* What mls_member_process did. */
enum mls_effect {
    MLS_PROPOSED = 1, /* A proposal is kept. */
    MLS_KNOWN = 2,    /* The proposal was kept already. */
    MLS_ADVANCED = 3, /* A commit was followed into the next epoch. */
    MLS_REMOVED = 4   /* A commit removed the member. */
};

/* Frees a handle of any kind; a null one answers 130. */
uint32_t mls_free(void *handle);

/* The name of a refusal, by its number; of no length where no refusal has it. */
uint32_t mls_refusal_name(uint64_t number, mls_bytes **name);

/* The identifier of the group and the number of the epoch that a message says it is of; nothing of it was checked. The
 * fourth byte of such a message is 1 where mls_member_process takes it, and 2 where mls_conversation_open does. 7 a message
 * of no group. */
uint32_t mls_message_place(const uint8_t *message, size_t message_length, mls_bytes **group_id, uint64_t *epoch);

/* The length of bytes. */
uint32_t mls_bytes_length(mls_bytes *bytes, uint64_t *length);

/* The byte at an index of bytes, or 135 where there is none. */
uint32_t mls_bytes_at(mls_bytes *bytes, uint64_t index, uint64_t *byte);

/* Copies bytes into a buffer of their length, which isn't null even for none; one of another length answers 135, and
 * stays as it is. */
uint32_t mls_bytes_copy(mls_bytes *bytes, uint8_t *buffer, size_t buffer_length);

/* Makes a candidate for membership, of an identity and a seed, which gives it all its keys. It is to join one group. */
uint32_t mls_candidate_new(const uint8_t *identity, size_t identity_length, const uint8_t *seed, size_t seed_length,
                           mls_candidate **candidate);

/* The message of a candidate's KeyPackage, for those who are to add it. */
uint32_t mls_candidate_key_package(mls_candidate *candidate, mls_bytes **message);

/* The identity and the signature key that the message of a KeyPackage offers, to be checked before it is added; nothing of
 * it was checked. */
uint32_t mls_key_package_identity(const uint8_t *key_package, size_t key_package_length, mls_bytes **identity,
                                  mls_bytes **signature_key);

/* Saves a candidate as bytes, which hold its secrets. */
uint32_t mls_candidate_save(mls_candidate *candidate, mls_bytes **saved);

/* Makes the candidate that was saved so. */
uint32_t mls_candidate_load(const uint8_t *saved, size_t saved_length, mls_candidate **candidate);

/* Makes a group of a candidate alone; the seed is its first secret. */
uint32_t mls_member_create(mls_candidate *candidate, const uint8_t *group_id, size_t group_id_length,
                           const uint8_t *seed, size_t seed_length, mls_member **member);

/* Makes the member that a Welcome makes of a candidate. */
uint32_t mls_member_join(mls_candidate *candidate, const uint8_t *welcome, size_t welcome_length, mls_member **member);

/* Saves a member as bytes, which hold its secrets: its group, its keys, the proposals that it keeps, its pending commit.
 * What a call made is to be stored with them, and sent only then: what is sent and not saved can't be followed. */
uint32_t mls_member_save(mls_member *member, mls_bytes **saved);

/* Makes the member that was saved so. */
uint32_t mls_member_load(const uint8_t *saved, size_t saved_length, mls_member **member);

/* The number of a member's epoch. */
uint32_t mls_member_epoch(mls_member *member, uint64_t *epoch);

/* The identifier of a member's group. */
uint32_t mls_member_group_id(mls_member *member, mls_bytes **group_id);

/* The index of the member's leaf, which others remove it by. */
uint32_t mls_member_leaf_index(mls_member *member, uint64_t *leaf);

/* The number of leaves of the group's tree, in which a leaf may be blank. */
uint32_t mls_member_leaf_count(mls_member *member, uint64_t *count);

/* The identity and the signature key of the member at a leaf, or 22 where there is none. */
uint32_t mls_member_at(mls_member *member, uint64_t leaf, mls_bytes **identity, mls_bytes **signature_key);

/* The extensions that the group carries, spelled as mls_member_propose_extensions takes them. */
uint32_t mls_member_extensions(mls_member *member, mls_bytes **extensions);

/* Exports a secret of the epoch, of at most 8,160 bytes, under a label, a text of at most 200 bytes, and a context. */
uint32_t mls_member_export(mls_member *member, const uint8_t *label, size_t label_length, const uint8_t *context,
                           size_t context_length, uint64_t secret_length, mls_bytes **secret);

/* Takes a message of the group, and says what it did, as an mls_effect. */
uint32_t mls_member_process(mls_member *member, const uint8_t *message, size_t message_length, uint64_t *effect);

/* Says what mls_member_process would do of a message, and makes the member as it would be then; the member itself stays.
 * So what a commit makes of a group can be looked at before it is followed. */
uint32_t mls_member_inspect(mls_member *member, const uint8_t *message, size_t message_length, uint64_t *effect,
                            mls_member **after);

/* The reference of the proposal that the member keeps with a message, by which a commit's list names it; null where it
 * keeps none with it. */
uint32_t mls_member_reference(mls_member *member, const uint8_t *message, size_t message_length, mls_bytes **reference);

/* The reference at an index of the proposals that a commit names and the member lacks; null where there are no more.
 * Until it has taken these it refuses the commit, unless this is its own: with 60, where nothing else is wrong with it
 * before. Nothing of the commit is checked here, and each call reads it again: ask for no more than you would fetch. */
uint32_t mls_member_missing_proposal(mls_member *member, const uint8_t *commit, size_t commit_length, uint64_t index,
                                     mls_bytes **reference);

/* Forgets the proposal that the member keeps under a reference: 1 there was one, 0 there was none. 67 while a commit is
 * pending. */
uint32_t mls_member_forget_proposal(mls_member *member, const uint8_t *reference, size_t reference_length, uint64_t *had);

/* Proposes to add the client of a KeyPackage's message, keeps the proposal, and makes its message for the others. */
uint32_t mls_member_propose_add(mls_member *member, const uint8_t *key_package, size_t key_package_length,
                                mls_bytes **message);

/* Proposes a new key for the member's own leaf, keeps the proposal, and makes its message for the others. */
uint32_t mls_member_propose_update(mls_member *member, const uint8_t *seed, size_t seed_length, mls_bytes **message);

/* Proposes to remove a leaf, keeps the proposal, and makes its message for the others. */
uint32_t mls_member_propose_remove(mls_member *member, uint64_t leaf, mls_bytes **message);

/* Proposes that the group carry the extensions that bytes spell (GroupExtensions of docs/FORMATS.md, with their length),
 * keeps the proposal, and makes its message for the others. */
uint32_t mls_member_propose_extensions(mls_member *member, const uint8_t *extensions, size_t extensions_length,
                                       mls_bytes **message);

/* Commits the proposals that the member keeps, with a path where that isn't 0 or one is required; the Welcome is null where
 * nobody is added. It leaves out those that can't go with the others or into the tree, as the addition of somebody who is
 * there. The member follows its commit once it processes it. */
uint32_t mls_member_commit_kept(mls_member *member, uint64_t path, const uint8_t *seed, size_t seed_length,
                                mls_bytes **commit, mls_bytes **welcome);

/* Commits a list of proposals, kept ones by reference and others in full, spelled as a Commit lists them (RFC 9420,
 * 12.4), as mls_member_commit_kept does its own list. It leaves nothing out: what can't go is refused. */
uint32_t mls_member_commit(mls_member *member, const uint8_t *proposals, size_t proposals_length, uint64_t path,
                           const uint8_t *seed, size_t seed_length, mls_bytes **commit, mls_bytes **welcome);

/* The message of the member's pending commit, as it was made; null where there is none. Its Welcome isn't kept. */
uint32_t mls_member_pending_commit(mls_member *member, mls_bytes **commit);

/* Forgets the member's pending commit: 1 there was one, 0 there was none. It can't follow one that it forgot: where others
 * may have got it, only another commit in its place lets the member go on. */
uint32_t mls_member_drop_pending(mls_member *member, uint64_t *had);

/* Makes the conversation of a member in its epoch, with which it seals and opens application messages. Of one member
 * only one conversation an epoch may seal: two begin with the same keys. So the conversation of a member that was loaded,
 * and may have sealed in its epoch before, is to go on by mls_conversation_restore, or the member is to commit first. A
 * member that keeps proposals is to commit before it seals (RFC 9420, 12.4). */
uint32_t mls_conversation_new(mls_member *member, mls_conversation **conversation);

/* Seals application data, with authenticated data that isn't encrypted and so many bytes of padding. */
uint32_t mls_conversation_seal(mls_conversation *conversation, const uint8_t *application_data,
                               size_t application_data_length, const uint8_t *authenticated_data,
                               size_t authenticated_data_length, uint64_t padding, const uint8_t *seed,
                               size_t seed_length, mls_bytes **message);

/* The identity and the signature key of the member at a leaf in the conversation's epoch, or 22 where there is none. Later
 * another may have that leaf of the group. */
uint32_t mls_conversation_member_at(mls_conversation *conversation, uint64_t leaf, mls_bytes **identity,
                                    mls_bytes **signature_key);

/* Opens a message of the epoch: its data, its authenticated data and its sender's leaf, which mls_conversation_member_at
 * tells of. */
uint32_t mls_conversation_open(mls_conversation *conversation, const uint8_t *message, size_t message_length,
                               mls_bytes **application_data, mls_bytes **authenticated_data, uint64_t *sender);

/* Saves a conversation as bytes, which hold its secrets. What was sealed is to be stored with the save that follows it, and
 * sent only then: by bytes of an older save keys would be used twice. 6 where there are more bytes than an input has
 * (67,108,864), or 1. */
uint32_t mls_conversation_save(mls_conversation *conversation, mls_bytes **saved);

/* Has a conversation go on as the one of its member and epoch that was saved so: after mls_member_load it is made by
 * mls_conversation_new, and restored with the bytes of the last save. 116 where it used a key already; the first fault of
 * bytes that spell no saved form (2 to 7); 111 another group, 112 another epoch, 7 also another leaf or a tree of
 * another height; or 1. */
uint32_t mls_conversation_restore(mls_conversation *conversation, const uint8_t *saved, size_t saved_length);

#ifdef __cplusplus
}
#endif

#endif
