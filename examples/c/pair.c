/* The life of a group of two, as a C program writes it. Seeds are random in earnest; here they are fixed.
 *
 *     gcc -Iinclude examples/c/pair.c crates/mls_c/out/libmls.a -o pair && ./pair
 *
 * ./test or tools/build-library leaves the archive.
 */
#include <inttypes.h>
#include <stdio.h>
#include <stdlib.h>
#include <string.h>

#include "mls.h"

/* A copy of bytes that a call made. */
struct message {
    uint8_t *bytes;
    size_t length;
};

/* What the program holds, and lets go however it ends. */
static void *handles[64], *copies[64];
static size_t handle_count, copy_count;

static void let_all_go(void) {
    while (handle_count > 0) {
        mls_free(handles[--handle_count]);
    }
    while (copy_count > 0) {
        free(copies[--copy_count]);
    }
}

/* Ends the program where a call was refused; where memory was, with status 3. */
static void check(const char *call, uint32_t number) {
    if (number != 0) {
        fprintf(stderr, "%s: refused with %" PRIu32 "\n", call, number);
        exit(number == 1 ? 3 : 1);
    }
}

/* Holds what a call made. */
static void *hold(void *handle) { return handles[handle_count++] = handle; }

/* Copies the bytes of a handle. */
static struct message copy_of(mls_bytes *handle) {
    struct message message = {NULL, 0};
    uint64_t length = 0;
    check("length", mls_bytes_length(handle, &length));
    message.length = (size_t)length;
    message.bytes = malloc(message.length > 0 ? message.length : 1);
    check("malloc", message.bytes == NULL ? 1 : 0);
    copies[copy_count++] = message.bytes;
    check("copy", mls_bytes_copy(handle, message.bytes, message.length));
    return message;
}

/* Holds bytes that a call made, and copies them. */
static struct message take(mls_bytes *handle) { return copy_of(hold(handle)); }

/* A seed of 32 like bytes. */
static const uint8_t *seed(uint8_t byte) {
    static uint8_t bytes[32];
    memset(bytes, byte, sizeof bytes);
    return bytes;
}

static mls_candidate *candidate(const char *name, uint8_t byte) {
    mls_candidate *made = NULL;
    check("candidate", mls_candidate_new((const uint8_t *)name, strlen(name), seed(byte), 32, &made));
    return hold(made);
}

static uint64_t process(mls_member *member, struct message message) {
    uint64_t effect = 0;
    check("process", mls_member_process(member, message.bytes, message.length, &effect));
    return effect;
}

/* Commits what a member keeps, and has it follow the commit. */
static struct message commit_kept(mls_member *member, uint8_t byte, struct message *welcome) {
    mls_bytes *made = NULL, *welcomed = NULL;
    check("commit", mls_member_commit_kept(member, 1, seed(byte), 32, &made, &welcomed));
    hold(made);
    hold(welcomed);
    struct message message = copy_of(made);
    if (welcome != NULL) {
        *welcome = copy_of(welcomed);
    }
    process(member, message);
    return message;
}

/* Commits the removal of a leaf, which the commit lists in full: its length, 1 in full, 3 a removal, the leaf. */
static struct message commit_removal(mls_member *member, uint32_t leaf, uint8_t byte) {
    const uint8_t list[] = {7, 1, 0, 3, (uint8_t)(leaf >> 24), (uint8_t)(leaf >> 16), (uint8_t)(leaf >> 8), (uint8_t)leaf};
    mls_bytes *made = NULL;
    check("commit", mls_member_commit(member, list, sizeof list, 1, seed(byte), 32, &made, NULL));
    struct message message = take(made);
    process(member, message);
    return message;
}

/* A member that is saved, and loaded again. What is saved holds the member's secrets; mls_free doesn't wipe them. */
static mls_member *reload(mls_member *member) {
    mls_bytes *made = NULL;
    mls_member *loaded = NULL;
    check("save", mls_member_save(member, &made));
    struct message saved = take(made);
    check("load", mls_member_load(saved.bytes, saved.length, &loaded));
    return hold(loaded);
}

/* A secret of 16 bytes that a member exports. */
static struct message export_secret(mls_member *member) {
    mls_bytes *made = NULL;
    check("export", mls_member_export(member, (const uint8_t *)"pair", 4, NULL, 0, 16, &made));
    return take(made);
}

/* A member's conversation of its epoch: it makes one, and keeps it while the epoch lasts. */
static mls_conversation *conversation(mls_member *member) {
    mls_conversation *made = NULL;
    check("conversation", mls_conversation_new(member, &made));
    return hold(made);
}

/* One member says something to the other, who looks up who it was. */
static void say(mls_conversation *speaker, mls_conversation *hearer, const char *words, uint8_t byte) {
    mls_bytes *made = NULL;
    uint64_t sender = 0;
    check("seal",
          mls_conversation_seal(speaker, (const uint8_t *)words, strlen(words), NULL, 0, 8, seed(byte), 32, &made));
    struct message message = take(made);
    check("open", mls_conversation_open(hearer, message.bytes, message.length, &made, NULL, &sender));
    struct message heard = take(made);
    check("sender", mls_conversation_member_at(hearer, sender, &made, NULL));
    struct message name = take(made);
    printf("%.*s says %.*s\n", (int)name.length, (const char *)name.bytes, (int)heard.length, (const char *)heard.bytes);
}

static uint64_t epoch(mls_member *member) {
    uint64_t number = 0;
    check("epoch", mls_member_epoch(member, &number));
    return number;
}

int main(void) {
    atexit(let_all_go);

    /* Alice creates a group, and adds Bob, who joins by the Welcome. */
    mls_candidate *hers = candidate("alice", 1), *his = candidate("bob", 2);
    mls_member *alice = NULL, *bob = NULL;
    mls_bytes *made = NULL;
    check("create", mls_member_create(hers, (const uint8_t *)"group", 5, seed(3), 32, &alice));
    hold(alice);
    check("key package", mls_candidate_key_package(his, &made));
    struct message package = take(made), welcome = {NULL, 0};
    check("identity", mls_key_package_identity(package.bytes, package.length, &made, NULL));
    struct message name = take(made);
    printf("alice adds %.*s\n", (int)name.length, (const char *)name.bytes);
    check("add", mls_member_propose_add(alice, package.bytes, package.length, NULL));
    commit_kept(alice, 4, &welcome);
    check("join", mls_member_join(his, welcome.bytes, welcome.length, &bob));
    hold(bob);
    printf("bob joins in epoch %" PRIu64 "\n", epoch(bob));
    mls_conversation *spoken = conversation(alice), *heard = conversation(bob);
    say(spoken, heard, "hello", 8);
    say(heard, spoken, "hi", 9);

    /* Bob proposes a new key for his leaf, and Alice commits it. */
    check("update", mls_member_propose_update(bob, seed(5), 32, &made));
    process(alice, take(made));
    process(bob, commit_kept(alice, 6, NULL));
    printf("both are in epoch %" PRIu64 "\n", epoch(alice));

    /* Bob is saved and loaded, and both export the same secret. */
    bob = reload(bob);
    struct message hers_secret = export_secret(alice), his_secret = export_secret(bob);
    printf("both export %s\n", memcmp(hers_secret.bytes, his_secret.bytes, 16) == 0 ? "one secret" : "two secrets");
    check("group", mls_member_group_id(bob, &made));
    struct message group = take(made);
    printf("bob is in %.*s, epoch %" PRIu64 "\n", (int)group.length, (const char *)group.bytes, epoch(bob));

    /* Alice removes Bob. */
    uint64_t leaf = 0;
    check("leaf", mls_member_leaf_index(bob, &leaf));
    struct message removed = commit_removal(alice, (uint32_t)leaf, 7);
    printf("bob was %s\n", process(bob, removed) == MLS_REMOVED ? "removed" : "kept");
    return 0;
}
