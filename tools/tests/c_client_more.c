/* Trials of ZooKeeper's C client, the second part: multi, asynchronous calls, and sessions. */
#include "c_client.h"

const char *try_multi(zhandle_t *zh) {
    zoo_op_t ops[5];
    zoo_op_result_t got[5];
    struct Stat stat;
    char first[64], second[64];
    zoo_create_op_init(&ops[0], "/multi", "", 0, OPEN, 0, first, 64);
    zoo_create_op_init(&ops[1], "/multi/a-", "", 0, OPEN, ZOO_SEQUENCE, second, 64);
    zoo_set_op_init(&ops[2], "/multi", "x", 1, 0, &stat);
    zoo_check_op_init(&ops[3], "/multi", 1);
    zoo_delete_op_init(&ops[4], "/multi/a-0000000000", 0);
    WANT(!zoo_multi(zh, 5, ops, got) && !got[0].err && !got[4].err && stat.version == 1);
    WANT(!strcmp(first, "/multi") && !strcmp(second, "/multi/a-0000000000"));
    WANT(!zoo_exists(zh, "/multi", 0, &stat) && !stat.numChildren && stat.czxid == stat.mzxid);
    return NULL;
}

/* One part of three is refused, and nothing is done. */
const char *try_multi_refused(zhandle_t *zh) {
    zoo_op_t ops[3];
    zoo_op_result_t got[3];
    struct Stat stat;
    WANT(!made(zh, "/whole"));
    zoo_set_op_init(&ops[0], "/whole", "y", 1, 0, NULL);
    zoo_set_op_init(&ops[1], "/whole", "z", 1, 0, NULL);
    zoo_delete_op_init(&ops[2], "/whole", -1);
    WANT(zoo_multi(zh, 3, ops, got) == ZBADVERSION && !got[0].err);
    WANT(got[1].err == ZBADVERSION && got[2].err == ZRUNTIMEINCONSISTENCY);
    zoo_check_op_init(&ops[1], "/none", -1);
    WANT(zoo_multi(zh, 3, ops, got) == ZNONODE && got[1].err == ZNONODE);
    zoo_delete_op_init(&ops[0], "/whole", -1);
    zoo_set_op_init(&ops[1], "/whole", "z", 1, -1, NULL);
    WANT(zoo_multi(zh, 2, ops, got) == ZNONODE);
    WANT(!zoo_exists(zh, "/whole", 0, &stat) && !stat.version && stat.pzxid == stat.czxid);
    return NULL;
}

const char *try_multi_watch(zhandle_t *zh) {
    zoo_op_t op;
    zoo_op_result_t got;
    WANT(!made(zh, "/told") && !zoo_wexists(zh, "/told", watcher, "told", NULL));
    zoo_set_op_init(&op, "/told", "y", 1, -1, NULL);
    WANT(!zoo_multi(zh, 1, &op, &got));
    UNTIL(came("told", ZOO_CHANGED_EVENT, "/told"));
    return NULL;
}

/* Counts the answers that are as they should be. */
static _Atomic int done;

static void finish(int rc, const char *value, const void *data) {
    (void)value, (void)data;
    done += !rc;
}

static void finish_multi(int rc, const void *data) { finish(rc, NULL, data); }

const char *try_asynchronous(zhandle_t *zh) {
    static zoo_op_result_t got;
    struct Stat stat;
    zoo_op_t op;
    WANT(!made(zh, "/many"));
    for (int i = 0; i < MANY; i++)
        WANT(!zoo_acreate(zh, "/many/n-", "", 0, OPEN, ZOO_SEQUENCE, finish, NULL));
    zoo_create_op_init(&op, "/many/last", "", 0, OPEN, 0, NULL, 0);
    WANT(!zoo_amulti(zh, 1, &op, &got, finish_multi, NULL));
    WANT(!zoo_async(zh, "/many", finish, NULL));
    UNTIL(done == MANY + 2);
    WANT(!zoo_exists(zh, "/many", 0, &stat) && stat.numChildren == MANY + 1);
    return NULL;
}

static void finish_auth(int rc, const void *data) { finish(data ? rc != ZAUTHFAILED : rc, 0, 0); }

const char *try_auth(zhandle_t *zh) {
    int before = done;
    WANT(!zoo_add_auth(zh, "digest", "user:word", 9, finish_auth, NULL));
    UNTIL(done == before + 1);
    WANT(!made(zh, "/auth"));
    zhandle_t *other = handle(at, TIMEOUT, "stranger");
    WANT(!zoo_add_auth(other, "none", "user", 4, finish_auth, "refused"));
    UNTIL(done == before + 2 && zoo_state(other) == ZOO_AUTH_FAILED_STATE);
    zookeeper_close(other);
    return NULL;
}

const char *try_acl(zhandle_t *zh) {
    struct ACL_vector acl;
    struct Stat stat;
    WANT(!made(zh, "/acl") && !zoo_get_acl(zh, "/acl", &acl, &stat));
    WANT(acl.count == 1 && acl.data[0].perms == ZOO_PERM_ALL && !stat.aversion);
    WANT(!strcmp(acl.data[0].id.scheme, "world") && !strcmp(acl.data[0].id.id, "anyone"));
    WANT(zoo_create(zh, "/acl/a", "", 0, &(struct ACL_vector){0}, 0, NULL, 0) == ZINVALIDACL);
    return NULL;
}

const char *try_lifetimes(zhandle_t *zh) {
    struct Stat stat;
    int kind = ZOO_PERSISTENT_WITH_TTL;
    WANT(!zoo_create2_ttl(zh, "/brief", "", 0, OPEN, kind, 700, NULL, 0, &stat));
    WANT(!zoo_create(zh, "/box", "", 0, OPEN, ZOO_CONTAINER, NULL, 0) && !made(zh, "/box/a"));
    WANT(!zoo_exists(zh, "/brief", 0, &stat) && !stat.ephemeralOwner);
    WANT(!zoo_delete(zh, "/box/a", -1));
    UNTIL(zoo_exists(zh, "/brief", 0, NULL) == ZNONODE);
    UNTIL(zoo_exists(zh, "/box", 0, NULL) == ZNONODE);
    return NULL;
}

const char *try_first_server_down(zhandle_t *zh) {
    char hosts[99];
    snprintf(hosts, 99, "%s,%s", nowhere, at);
    zoo_deterministic_conn_order(1);
    zhandle_t *other = handle(hosts, TIMEOUT, "second");
    WANT(zoo_state(other) == ZOO_CONNECTED_STATE && zoo_client_id(zh)->client_id);
    WANT(!zookeeper_close(other));
    return NULL;
}

static void ask(const char *what) {
    char line[9];
    printf("%s\n", what), fflush(stdout);
    if (!fgets(line, 9, stdin)) exit(1);
}

/* The server is stopped and started: the session, its node and its watches are as before. */
const char *try_restart(zhandle_t *zh) {
    int64_t session = zoo_client_id(zh)->client_id;
    struct Stat stat;
    char data[64];
    WANT(!zoo_create(zh, "/kept", "", 0, OPEN, ZOO_EPHEMERAL, NULL, 0));
    WANT(!zoo_wget(zh, "/kept", watcher, "kept", data, &(int){64}, NULL));
    WANT(zoo_wexists(zh, "/later", watcher, "later", NULL) == ZNONODE);
    ask("stop");
    UNTIL(zoo_state(zh) != ZOO_CONNECTED_STATE);
    WANT(zoo_exists(zh, "/kept", 0, NULL) == ZCONNECTIONLOSS);
    ask("start");
    UNTIL(zoo_state(zh) == ZOO_CONNECTED_STATE);
    WANT(zoo_client_id(zh)->client_id == session && !zoo_exists(zh, "/kept", 0, &stat));
    WANT(stat.ephemeralOwner == session && !zoo_set(zh, "/kept", "x", 1, 0) && !made(zh, "/later"));
    UNTIL(came("kept", ZOO_CHANGED_EVENT, "/kept") && came("later", ZOO_CREATED_EVENT, "/later"));
    return NULL;
}

/* Another connection takes the session up and ends it: it is expired. */
const char *try_expiry(zhandle_t *zh) {
    zhandle_t *other = handle(at, TIMEOUT, "expired");
    clientid_t own = *zoo_client_id(other);
    unsigned char sent[61] = {[3] = 45, [18] = 23, [19] = 112, [31] = 16, [52] = 8, [60] = 245};
    WANT(!zoo_create(other, "/gone", "", 0, OPEN, ZOO_EPHEMERAL, NULL, 0));
    for (int i = 0; i < 8; i++) sent[20 + i] = own.client_id >> (56 - 8 * i);
    memcpy(sent + 32, own.passwd, 16), memset(sent + 57, 255, 3);
    struct sockaddr_in to = {.sin_family = AF_INET, .sin_port = htons(atoi(strchr(at, ':') + 1))};
    int wire = socket(AF_INET, SOCK_STREAM, 0);
    to.sin_addr.s_addr = htonl(INADDR_LOOPBACK);
    WANT(!connect(wire, (struct sockaddr *)&to, sizeof to) && write(wire, sent, 61) == 61);
    UNTIL(has_state("expired", ZOO_EXPIRED_SESSION_STATE));
    WANT(zoo_exists(zh, "/gone", 0, NULL) == ZNONODE && made(other, "/a") == ZINVALIDSTATE);
    WANT(is_unrecoverable(other) == ZINVALIDSTATE);
    zookeeper_close(other), close(wire);
    return NULL;
}

/* A client that says nothing for longer than its session's timeout keeps it by pings. */
const char *try_pings(zhandle_t *zh) {
    struct Stat stat;
    zhandle_t *other = handle(at, 2500, "idle");
    int64_t session = zoo_client_id(other)->client_id;
    WANT(!zoo_create(other, "/alive", "", 0, OPEN, ZOO_EPHEMERAL, NULL, 0));
    usleep(4000000);
    WANT(!zoo_exists(zh, "/alive", 0, &stat) && stat.ephemeralOwner == session);
    WANT(!zoo_exists(other, "/alive", 0, &stat));
    WANT(!zookeeper_close(other) && zoo_exists(zh, "/alive", 0, &stat) == ZNONODE);
    return NULL;
}

/* These ask for what not every server has. */
const char *try_null(zhandle_t *zh) {
    int size = 64;
    char data[64];
    WANT(!zoo_create(zh, "/null", NULL, -1, OPEN, 0, NULL, 0));
    WANT(!zoo_get(zh, "/null", 0, data, &size, NULL) && size == -1);
    return NULL;
}

const char *try_set_acl(zhandle_t *zh) {
    struct ACL_vector acl;
    struct Stat stat;
    WANT(!made(zh, "/open") && !zoo_set_acl(zh, "/open", 0, OPEN));
    WANT(!zoo_get_acl(zh, "/open", &acl, &stat) && acl.count == 1 && stat.aversion == 1);
    return NULL;
}

const char *try_container_owner(zhandle_t *zh) {
    struct Stat stat;
    WANT(!zoo_create(zh, "/owner", "", 0, OPEN, ZOO_CONTAINER, NULL, 0));
    WANT(!zoo_exists(zh, "/owner", 0, &stat) && !stat.ephemeralOwner);
    return NULL;
}

const char *try_config(zhandle_t *zh) {
    char data[999];
    WANT(!zoo_getconfig(zh, 0, data, &(int){999}, NULL));
    return NULL;
}
