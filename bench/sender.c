// Sends clients' transactions to validators, follows the list that one of them prints, and reports how many came and how late.
//
// usage: sender ADDRESS,.. KEYS LIST CLIENTS WINDOW BYTES SECONDS CONNECTIONS
//
// Clients 0 to CLIENTS - 1 have their key files in the folder KEYS, and each has at most WINDOW transactions of BYTES bytes that
// aren't in LIST yet. They share CONNECTIONS connections with each validator. After a second, and once each has one in the list, it
// prints "began", SECONDS later "ended", and then a line of JSON about what came in between. Formats: docs/FORMATS.md.
#include <arpa/inet.h>
#include <errno.h>
#include <fcntl.h>
#include <netinet/tcp.h>
#include <stdbool.h>
#include <stdint.h>
#include <stdio.h>
#include <stdlib.h>
#include <string.h>
#include <sys/epoll.h>
#include <sys/inotify.h>
#include <sys/resource.h>
#include <sys/socket.h>
#include <time.h>
#include <unistd.h>

enum { LANES = 16, BLOCK = 64, TAG = 32, CLOSE_AFTER = 5, LEAST_STREAM = 4 << 20 };
// The codes of replies and, with 13, their inner numbers.
enum { CODES = 18, INNER = 10 };
// What a frame has in front of a transaction's bytes: its length, kind, client, number, op, and how many bytes these are.
enum { HEAD = 4, FRONT = HEAD + 1 + 2 + 8 + 1 + 2 };
static const double WARM = 1.0, MOST_WARM = 20.0, REPLIES_EVERY = 0.01, AGAIN_AFTER = 5.0;
// How many frames are made before the clock runs, at most: for so many a second of all, and of each that may wait; and their bytes.
static const double MOST_A_SECOND = 80e3, MOST_OF_EACH = 4e3, MOST_BYTES = 512e6;

static void fail(const char *why) {
    fprintf(stderr, "sender: %s: %s\n", why, strerror(errno));
    exit(1);
}

static void *room_for(size_t count, size_t size) {
    void *found = calloc(count ? count : 1, size);
    if (!found) fail("memory");
    return found;
}

static double seconds_of(clockid_t clock) {
    struct timespec now;
    clock_gettime(clock, &now);
    return now.tv_sec + now.tv_nsec * 1e-9;
}

static void put_number(uint8_t *at, uint64_t number, int bytes) {
    for (int it = bytes; it-- > 0; number >>= 8) at[it] = number;
}

// ---- SHA-256 (FIPS 180-4) and HMAC (RFC 2104) of several messages of one length at once, one in each lane

typedef uint32_t lanes __attribute__((vector_size(LANES * 4)));
typedef struct { lanes words[8]; } digests;

static const uint32_t ROUND[64] = {
    0x428a2f98, 0x71374491, 0xb5c0fbcf, 0xe9b5dba5, 0x3956c25b, 0x59f111f1, 0x923f82a4, 0xab1c5ed5, 0xd807aa98, 0x12835b01, 0x243185be,
    0x550c7dc3, 0x72be5d74, 0x80deb1fe, 0x9bdc06a7, 0xc19bf174, 0xe49b69c1, 0xefbe4786, 0x0fc19dc6, 0x240ca1cc, 0x2de92c6f, 0x4a7484aa,
    0x5cb0a9dc, 0x76f988da, 0x983e5152, 0xa831c66d, 0xb00327c8, 0xbf597fc7, 0xc6e00bf3, 0xd5a79147, 0x06ca6351, 0x14292967, 0x27b70a85,
    0x2e1b2138, 0x4d2c6dfc, 0x53380d13, 0x650a7354, 0x766a0abb, 0x81c2c92e, 0x92722c85, 0xa2bfe8a1, 0xa81a664b, 0xc24b8b70, 0xc76c51a3,
    0xd192e819, 0xd6990624, 0xf40e3585, 0x106aa070, 0x19a4c116, 0x1e376c08, 0x2748774c, 0x34b0bcb5, 0x391c0cb3, 0x4ed8aa4a, 0x5b9cca4f,
    0x682e6ff3, 0x748f82ee, 0x78a5636f, 0x84c87814, 0x8cc70208, 0x90befffa, 0xa4506ceb, 0xbef9a3f7, 0xc67178f2};
static const uint32_t FIRST[8] = {0x6a09e667, 0xbb67ae85, 0x3c6ef372, 0xa54ff53a, 0x510e527f, 0x9b05688c, 0x1f83d9ab, 0x5be0cd19};

#define TURNED(x, n) ((x) >> (n) | (x) << (32 - (n)))

static void compress(digests *to, lanes w[16]) {
    lanes s[8];
    memcpy(s, to->words, sizeof s);
    for (int it = 0; it < 64; it++) {
        lanes *own = &w[it % 16];
        if (it >= 16) {
            lanes early = w[(it + 1) % 16], late = w[(it + 14) % 16];
            *own += w[(it + 9) % 16] + (TURNED(early, 7) ^ TURNED(early, 18) ^ early >> 3) + (TURNED(late, 17) ^ TURNED(late, 19) ^ late >> 10);
        }
        lanes one = s[7] + (TURNED(s[4], 6) ^ TURNED(s[4], 11) ^ TURNED(s[4], 25)) + (s[6] ^ (s[4] & (s[5] ^ s[6]))) + ROUND[it] + *own;
        lanes two = (TURNED(s[0], 2) ^ TURNED(s[0], 13) ^ TURNED(s[0], 22)) + ((s[0] & s[1]) | (s[2] & (s[0] | s[1])));
        memmove(s + 1, s, 7 * sizeof *s);
        s[4] += one;
        s[0] = one + two;
    }
    for (int it = 0; it < 8; it++) to->words[it] += s[it];
}

// What a key leaves behind its first block, of the inner and of the outer hash.
typedef struct { uint32_t half[2][8]; } keyed;

static keyed keyed_of(const uint8_t key[TAG]) {
    keyed found;
    for (int half = 0; half < 2; half++) {
        digests digest;
        lanes block[16];
        for (int it = 0; it < 16; it++) {
            uint32_t word = 0;
            for (int byte = 4 * it; byte < 4 * it + 4; byte++) word = word << 8 | ((byte < TAG ? key[byte] : 0) ^ (half ? 0x5c : 0x36));
            block[it] = (lanes){} + word;
        }
        for (int it = 0; it < 8; it++) digest.words[it] = (lanes){} + FIRST[it];
        compress(&digest, block);
        for (int it = 0; it < 8; it++) found.half[half][it] = digest.words[it][0];
    }
    return found;
}

static digests begun(const keyed *const keys[LANES], int half) {
    digests found;
    for (int it = 0; it < 8; it++)
        for (int lane = 0; lane < LANES; lane++) found.words[it][lane] = keys[lane]->half[half][it];
    return found;
}

// Puts the tag of each lane's body, which is padded to whole blocks, in its place.
static void make_tags(const keyed *const keys[LANES], uint8_t *const bodies[LANES], size_t blocks, uint8_t *const tags[LANES]) {
    lanes block[16];
    digests inner = begun(keys, 0), outer = begun(keys, 1);
    for (size_t at = 0; at < blocks * BLOCK; at += BLOCK) {
        for (int it = 0; it < 16; it++)
            for (int lane = 0; lane < LANES; lane++) {
                uint32_t word;
                memcpy(&word, bodies[lane] + at + 4 * it, 4);
                block[it][lane] = ntohl(word);
            }
        compress(&inner, block);
    }
    memset(block, 0, sizeof block);
    memcpy(block, inner.words, sizeof inner.words);
    block[8] += 0x80000000u;
    block[15] += 8 * (BLOCK + TAG);
    compress(&outer, block);
    for (int lane = 0; lane < LANES; lane++)
        for (int it = 0; it < 8; it++) put_number(tags[lane] + 4 * it, outer.words[it][lane], 4);
}

// ---- what there is

typedef struct {
    uint64_t sent, listed;
    double *sent_at, moved;  // when each of the window was sent, and when one was sent or listed last
    bool waits;              // to be looked at: it may send more
} client;

// A connection with one validator: how much of its stream it has sent, and what of a reply it has read.
typedef struct { int fd; uint64_t sent; uint8_t reply[8]; uint32_t held, skip; } connection;

// What all validators get of some clients: whole frames, of which the last ones are kept, so many as there is room for.
typedef struct { uint8_t *bytes; uint64_t room, count, tagged; connection *to; } stream;

static struct {
    int clients, window, streams, validators, poll;
    size_t bytes, body, frame, blocks;
    uint64_t made;  // how many frames of each client are made before
    stream ready;   // those
    client *each;
    keyed *keys;
    stream *stream;
    int *due, dues;
    uint8_t *lane[LANES];
} all;

// What came while the clock ran.
static struct { bool counts; uint64_t listed, again, codes[CODES][INNER]; uint32_t *waits; size_t room; } seen;

static void read_keys(const char *folder, int own) {
    char path[4096], text[TAG * 2 + 1];
    unsigned validator, byte;
    snprintf(path, sizeof path, "%s/c%d.keys", folder, own);
    FILE *file = fopen(path, "r");
    if (!file) fail(path);
    while (fscanf(file, "c%*u v%u %64s\n", &validator, text) == 2) {
        uint8_t key[TAG];
        for (int it = 0; it < TAG; it++) key[it] = sscanf(text + 2 * it, "%2x", &byte) == 1 ? byte : 0;
        if (validator < (unsigned)all.validators) all.keys[own * all.validators + validator] = keyed_of(key);
    }
    fclose(file);
}

static int dial(const char *address) {
    struct sockaddr_in to = {.sin_family = AF_INET};
    char host[64];
    unsigned port;
    int on = 1, fd = socket(AF_INET, SOCK_STREAM, 0);
    if (sscanf(address, "%63[^:]:%u", host, &port) != 2 || inet_pton(AF_INET, host, &to.sin_addr) != 1) fail(address);
    to.sin_port = htons(port);
    if (fd < 0 || connect(fd, (struct sockaddr *)&to, sizeof to)) fail(address);
    setsockopt(fd, IPPROTO_TCP, TCP_NODELAY, &on, sizeof on);
    fcntl(fd, F_SETFL, O_NONBLOCK);
    struct epoll_event wanted = {.events = EPOLLOUT | EPOLLET};
    epoll_ctl(all.poll, EPOLL_CTL_ADD, fd, &wanted);
    return fd;
}

static void open_streams(char *addresses) {
    char *rest = addresses, **address = room_for(all.validators, sizeof *address);
    for (int it = 0; it < all.validators; it++) address[it] = strsep(&rest, ",");
    for (int it = 0; it < all.streams; it++) {
        stream *own = &all.stream[it];
        own->room = 4 * (all.clients / all.streams + 1) * all.window + LEAST_STREAM / all.frame;
        own->bytes = room_for(own->room, all.frame);
        own->to = room_for(all.validators, sizeof *own->to);
        for (int to = 0; to < all.validators; to++) own->to[to].fd = dial(address[to]);
    }
    free(address);
}

static void open_clients(const char *keys) {
    for (int it = 0; it < all.clients; it++) {
        all.each[it].sent_at = room_for(all.window, sizeof(double));
        all.each[it].waits = true;
        all.due[all.dues++] = it;
        read_keys(keys, it);
    }
    for (int lane = 0; lane < LANES; lane++) {
        uint8_t *own = all.lane[lane] = room_for(all.blocks, BLOCK);
        own[all.body] = 0x80;
        put_number(own + all.blocks * BLOCK - 8, 8 * (BLOCK + all.body), 8);
    }
}

// ---- sending

static uint8_t *frame_at(stream *own, uint64_t number) { return own->bytes + number % own->room * all.frame; }

// Returns how many more frames have room: those that not all validators have stay.
static uint64_t room_of(const stream *own) {
    uint64_t least = own->count * all.frame;
    for (int it = 0; it < all.validators; it++)
        if (own->to[it].fd >= 0 && own->to[it].sent < least) least = own->to[it].sent;
    return own->room - (own->count - least / all.frame);
}

// Adds a frame without its tags.
static void add_frame(stream *own, int from, uint64_t number) {
    uint8_t *frame = frame_at(own, own->count++);
    put_number(frame, all.frame - HEAD, 4);
    frame[4] = 1;
    put_number(frame + 5, from, 2);
    put_number(frame + 7, number, 8);
    frame[15] = 0;
    put_number(frame + 16, all.bytes, 2);
    memset(frame + FRONT, 'x', all.bytes);
    frame[HEAD + all.body] = all.validators;
}

// Makes the tags of the frames that have none yet, as many at once as there are lanes.
static void tag_frames(stream *own) {
    uint8_t spare[TAG], *tags[LANES];
    const keyed *keys[LANES];
    uint64_t at = own->tagged * all.validators, end = own->count * all.validators;
    for (; at < end; at += LANES) {
        for (int lane = 0; lane < LANES; lane++) {
            uint64_t it = at + lane < end ? at + lane : at, validator = it % all.validators;
            uint8_t *frame = frame_at(own, it / all.validators);
            keys[lane] = &all.keys[(frame[5] << 8 | frame[6]) * all.validators + validator];
            memcpy(all.lane[lane], frame + HEAD, all.body);
            tags[lane] = at + lane < end ? frame + HEAD + all.body + 1 + validator * TAG : spare;
        }
        make_tags(keys, all.lane, all.blocks, tags);
    }
    own->tagged = own->count;
}

// Makes the frames that are likely to be sent, so that nothing is hashed while the clock runs.
static void make_ready(double seconds) {
    double most = MOST_OF_EACH * all.window * all.clients;
    most = (most < MOST_A_SECOND ? most : MOST_A_SECOND) * (WARM + seconds);
    if (most * all.frame > MOST_BYTES) most = MOST_BYTES / all.frame;
    all.made = most / all.clients + 1;
    all.ready.room = all.made * all.clients;
    all.ready.bytes = room_for(all.ready.room, all.frame);
    for (int from = 0; from < all.clients; from++)
        for (uint64_t number = 1; number <= all.made; number++) add_frame(&all.ready, from, number);
    tag_frames(&all.ready);
}

// Adds a frame to what is sent, with its tags where it is made already.
static void put_frame(stream *own, int from, uint64_t number) {
    if (number > all.made) {
        add_frame(own, from, number);
        return;
    }
    memcpy(frame_at(own, own->count), frame_at(&all.ready, from * all.made + number - 1), all.frame);
    own->tagged += own->tagged == own->count;
    own->count++;
}

// Sends what a validator doesn't have, as much as its connection takes.
static void flush(stream *own, connection *to) {
    uint64_t size = own->room * all.frame, end = own->count * all.frame;
    while (to->fd >= 0 && to->sent < end) {
        uint64_t at = to->sent % size, most = end - to->sent < size - at ? end - to->sent : size - at;
        ssize_t took = send(to->fd, own->bytes + at, most, MSG_NOSIGNAL);
        if (took < 0) {
            if (errno == EAGAIN) return;
            perror("sender: a connection ended");
            to->fd = -1;
            return;
        }
        to->sent += took;
    }
}

// Has each client that waits send as much as its window and its stream have room for.
static void send_due(double now) {
    int left = 0;
    for (int it = 0; it < all.dues; it++) {
        int from = all.due[it];
        client *own = &all.each[from];
        stream *by = &all.stream[from % all.streams];
        uint64_t room = room_of(by), more = all.window - (own->sent - own->listed);
        own->waits = room < more;
        if (own->waits) all.due[left++] = from;
        for (uint64_t left_of = room < more ? room : more; left_of > 0; left_of--) {
            own->sent_at[own->sent % all.window] = own->moved = now;
            put_frame(by, from, ++own->sent);
        }
    }
    all.dues = left;
}

// Sends again what a client has waited for in vain, as where a validator's queue was full.
static void send_again(double now) {
    for (int from = 0; from < all.clients; from++) {
        client *own = &all.each[from];
        stream *by = &all.stream[from % all.streams];
        if (own->sent == own->listed || now - own->moved < AGAIN_AFTER || room_of(by) < own->sent - own->listed) continue;
        for (uint64_t it = own->listed + 1; it <= own->sent; it++) put_frame(by, from, it);
        seen.again += own->sent - own->listed;
        own->moved = now;
    }
}

static void flush_all(void) {
    for (int it = 0; it < all.streams; it++) {
        tag_frames(&all.stream[it]);
        for (int to = 0; to < all.validators; to++) flush(&all.stream[it], &all.stream[it].to[to]);
    }
}

// ---- what comes

// Counts the replies among what a validator sent, and passes over its other frames.
static void take_in(connection *from, const uint8_t *bytes, ssize_t count) {
    for (ssize_t at = 0; at < count;) {
        if (from->skip) {
            uint32_t most = count - at < from->skip ? count - at : from->skip;
            at += most, from->skip -= most;
            continue;
        }
        from->reply[from->held++] = bytes[at++];
        uint8_t *held = from->reply;
        uint32_t length = (uint32_t)held[0] << 24 | held[1] << 16 | held[2] << 8 | held[3];
        if (from->held == 4 && length != 3) from->skip = length, from->held = 0;
        if (from->held == 7 && held[5] < CODES && held[6] < INNER) seen.codes[held[5]][held[6]]++;
        if (from->held == 7) from->held = 0;
    }
}

static void read_replies(void) {
    static uint8_t bytes[1 << 16];
    for (int it = 0; it < all.streams * all.validators; it++) {
        connection *from = &all.stream[it / all.validators].to[it % all.validators];
        ssize_t count;
        while (from->fd >= 0 && (count = recv(from->fd, bytes, sizeof bytes, 0)) > 0) take_in(from, bytes, count);
    }
}

static void note_listed(uint64_t from, uint64_t number, double now) {
    if (from >= (uint64_t)all.clients || number <= all.each[from].listed) return;
    client *own = &all.each[from];
    own->listed = number;
    own->moved = now;
    if (!own->waits) all.due[all.dues++] = from, own->waits = true;
    if (!seen.counts) return;
    if (seen.listed == seen.room) {
        seen.room = seen.room ? 2 * seen.room : 1 << 20;
        seen.waits = realloc(seen.waits, seen.room * sizeof *seen.waits);
        if (!seen.waits) fail("memory");
    }
    seen.waits[seen.listed++] = (now - own->sent_at[(number - 1) % all.window]) * 1e6;
}

// Reads the new lines of the list, POSITION CLIENT NUMBER HEX.
static void read_list(int list, double now) {
    static char bytes[1 << 18];
    static uint64_t field, word[3];
    ssize_t count;
    while ((count = read(list, bytes, sizeof bytes)) > 0)
        for (char *at = bytes, *end = bytes + count; at < end; at++) {
            if (field == 3 && !(at = memchr(at, '\n', end - at))) break;
            if (*at == '\n') note_listed(word[1], word[2], now), field = word[0] = word[1] = word[2] = 0;
            else if (*at == ' ') field++;
            else word[field] = 10 * word[field] + (*at - '0');
        }
}

static int by_number(const void *one, const void *other) {
    uint32_t a = *(const uint32_t *)one, b = *(const uint32_t *)other;
    return (a > b) - (a < b);
}

static void report(double seconds, double processor) {
    uint64_t missing = 0;
    for (int it = 0; it < all.clients; it++) missing += all.each[it].sent - all.each[it].listed;
    qsort(seen.waits, seen.listed, sizeof *seen.waits, by_number);
    double middle = seen.listed ? seen.waits[seen.listed / 2] : 0, late = seen.listed ? seen.waits[seen.listed * 99 / 100] : 0;
    printf("{\"delivered\": %lu, \"seconds\": %f, \"middle\": %f, \"late\": %f, \"processor\": %f, \"again\": %lu, \"missing\": %lu, \"codes\": {",
        seen.listed, seconds, middle / 1e6, late / 1e6, processor / seconds, seen.again, missing);
    const char *between = "";
    for (int it = 0; it < CODES * INNER; it++) {
        uint64_t count = seen.codes[it / INNER][it % INNER];
        if (count) printf("%s\"%d %d\": %lu", between, it / INNER, it % INNER, count), between = ", ";
    }
    printf("}}\n");
}

// ---- the run

static bool all_listed(void) {
    for (int it = 0; it < all.clients; it++)
        if (all.each[it].listed < all.each[it].sent) return false;
    return true;
}

// Returns whether each client has a transaction in the list.
static bool all_begun(void) {
    for (int it = 0; it < all.clients; it++)
        if (!all.each[it].listed) return false;
    return true;
}

// Waits for a connection that takes more, a longer list, or the time for replies.
static void wait_for_more(int changes) {
    char noted[4096];
    struct epoll_event events[64];
    if (epoll_wait(all.poll, events, 64, REPLIES_EVERY * 1e3) > 0)
        while (read(changes, noted, sizeof noted) > 0) {}
}

static void turn(int list, int changes, bool sends) {
    static double replies;
    double now = seconds_of(CLOCK_MONOTONIC);
    read_list(list, now);
    if (sends) send_due(now);
    if (now - replies > REPLIES_EVERY) read_replies(), send_again(now), replies = now;
    flush_all();
    wait_for_more(changes);
}

static void run(int list, int changes, double seconds) {
    double began = seconds_of(CLOCK_MONOTONIC), now = began;
    for (; now < began + WARM || (now < began + MOST_WARM && !all_begun()); now = seconds_of(CLOCK_MONOTONIC)) turn(list, changes, true);
    puts("began");
    began = seconds_of(CLOCK_MONOTONIC);
    double spent = seconds_of(CLOCK_PROCESS_CPUTIME_ID);
    seen.counts = true;
    while (seconds_of(CLOCK_MONOTONIC) < began + seconds) turn(list, changes, true);
    seen.counts = false;
    puts("ended");
    double ended = seconds_of(CLOCK_MONOTONIC);
    spent = seconds_of(CLOCK_PROCESS_CPUTIME_ID) - spent;
    while (!all_listed() && seconds_of(CLOCK_MONOTONIC) < ended + CLOSE_AFTER) turn(list, changes, false);
    report(ended - began, spent);
}

int main(int count, char **words) {
    if (count != 9) return fprintf(stderr, "sender: usage: sender ADDRESS,.. KEYS LIST CLIENTS WINDOW BYTES SECONDS CONNECTIONS\n"), 2;
    setvbuf(stdout, NULL, _IOLBF, 0);
    all.validators = 1;
    for (char *at = words[1]; *at; at++) all.validators += *at == ',';
    all.clients = atoi(words[4]), all.window = atoi(words[5]), all.bytes = atoi(words[6]), all.streams = atoi(words[8]);
    all.body = FRONT - HEAD + all.bytes;
    all.frame = HEAD + all.body + 1 + TAG * all.validators;
    all.blocks = (all.body + 9 + BLOCK - 1) / BLOCK;
    all.each = room_for(all.clients, sizeof *all.each);
    all.keys = room_for(all.clients * all.validators, sizeof *all.keys);
    all.due = room_for(all.clients, sizeof *all.due);
    all.stream = room_for(all.streams, sizeof *all.stream);
    all.poll = epoll_create1(0);
    open_clients(words[2]);
    make_ready(atof(words[7]));
    open_streams(words[1]);
    int list = open(words[3], O_RDONLY), changes = inotify_init1(IN_NONBLOCK);
    if (list < 0 || changes < 0 || inotify_add_watch(changes, words[3], IN_MODIFY) < 0) fail(words[3]);
    lseek(list, 0, SEEK_END);
    struct epoll_event wanted = {.events = EPOLLIN};
    epoll_ctl(all.poll, EPOLL_CTL_ADD, changes, &wanted);
    run(list, changes, atof(words[7]));
    return 0;
}
