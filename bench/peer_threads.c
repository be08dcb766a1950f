/* Threads of one process pass texts of one length through queues, and count the bytes received, by
   the words of `bench system`: `peer_threads QUEUE WORD BYTES COUNT SENDERS RECEIVERS QUOTA [MOST]`.
   WORD is `flow`, where each sender sends COUNT texts through one queue and each receiver takes its
   share; `types`, where each sender sends COUNT texts to each receiver by turns, which takes those of
   a type of its own; `own`, where each of SENDERS sends and receives by turns, COUNT times, in a
   queue of its own; or `two`, where two pass one text in round trips, on two queues. QUEUE is
   `kernel`, a System V message queue of the kernel, or `mutex`, a mutex with two condition variables
   over a ring of heap buffers with the same quota, and for each further type a ring with a condition
   variable more. The kernel gives no greater quota than its msgmnb, and takes a text of more than
   MOST bytes in pieces. The program that bench/threads.sh times the queues against. */
#define _GNU_SOURCE
#include <pthread.h>
#include <stdio.h>
#include <stdlib.h>
#include <string.h>
#include <sys/ipc.h>
#include <sys/msg.h>

#include "kernel_text.h"

enum { QUOTA_MOST = 131072, THREADS_MOST = 16 };

struct letter {
    char *bytes;
    size_t length;
};

/* The pending messages of a queue of this program, of one type. */
struct ring {
    pthread_cond_t arrived;
    struct letter *waiting;
    size_t first, count;
};

/* A queue of the kernel or of this program, on cache lines of its own. */
struct queue {
    _Alignas(128) pthread_mutex_t lock;
    pthread_cond_t room;
    size_t count, bytes;
    struct ring rings[THREADS_MOST];
    int id;
};

/* What a thread does: so many rounds, in each of which it sends a text of each type from 1 on to the
   first queue, receives one of the type that it selects from the second, and sends one to the third,
   where it has such a queue. */
struct player {
    struct queue *sends, *receives, *replies;
    long rounds, types, selects;
    size_t came;
};

static struct queue queues[THREADS_MOST];
static struct player players[2 * THREADS_MOST];
static int of_kernel;
static long size, quota, most = TEXT_MOST;
static char source[TEXT_MOST];

static void fail(const char *what)
{
    perror(what);
    exit(1);
}

static void make(struct queue *queue, long types)
{
    if (!of_kernel) {
        pthread_mutex_init(&queue->lock, NULL);
        pthread_cond_init(&queue->room, NULL);
        for (long k = 0; k < types; k++) {
            pthread_cond_init(&queue->rings[k].arrived, NULL);
            queue->rings[k].waiting = calloc(quota, sizeof(struct letter));
            if (queue->rings[k].waiting == NULL)
                fail("calloc");
        }
        return;
    }
    struct msqid_ds values;
    queue->id = msgget(IPC_PRIVATE, 0600);
    if (queue->id < 0 || msgctl(queue->id, IPC_STAT, &values) != 0)
        fail("msgget");
    if (values.msg_qbytes > (msglen_t)quota)
        values.msg_qbytes = quota;
    if (msgctl(queue->id, IPC_SET, &values) != 0)
        fail("msgctl");
}

/* The ring of a type. A selection of any type finds the first one: all is of type 1 then. */
static struct ring *ring_of(struct queue *queue, long type)
{
    return &queue->rings[type > 1 ? type - 1 : 0];
}

static void send_text(struct queue *queue, long type, struct text *scratch)
{
    if (of_kernel) {
        scratch->type = type;
        memcpy(scratch->bytes, source, size);
        if (!send_whole(queue->id, scratch, size, most))
            fail("msgsnd");
        return;
    }
    struct ring *ring = ring_of(queue, type);
    struct letter letter = {malloc(size ? size : 1), size};
    if (letter.bytes == NULL)
        fail("malloc");
    memcpy(letter.bytes, source, size);
    pthread_mutex_lock(&queue->lock);
    while (queue->count == (size_t)quota || queue->bytes + size > (size_t)quota)
        pthread_cond_wait(&queue->room, &queue->lock);
    ring->waiting[(ring->first + ring->count) % quota] = letter;
    ring->count++;
    queue->count++;
    queue->bytes += size;
    pthread_mutex_unlock(&queue->lock);
    pthread_cond_signal(&ring->arrived);
}

static size_t receive_text(struct queue *queue, long type, struct text *scratch)
{
    if (of_kernel) {
        long length = receive_whole(queue->id, scratch, type, size, most);
        if (length < 0)
            fail("msgrcv");
        return length;
    }
    struct ring *ring = ring_of(queue, type);
    pthread_mutex_lock(&queue->lock);
    while (ring->count == 0)
        pthread_cond_wait(&ring->arrived, &queue->lock);
    struct letter letter = ring->waiting[ring->first];
    ring->first = (ring->first + 1) % quota;
    ring->count--;
    queue->count--;
    queue->bytes -= letter.length;
    pthread_mutex_unlock(&queue->lock);
    pthread_cond_signal(&queue->room);
    free(letter.bytes);
    return letter.length;
}

static void *play(void *given)
{
    struct player *player = given;
    struct text *scratch = malloc(sizeof *scratch);
    size_t came = 0;
    if (scratch == NULL)
        fail("malloc");
    for (long i = 0; i < player->rounds; i++) {
        for (long type = 1; player->sends && type <= player->types; type++)
            send_text(player->sends, type, scratch);
        if (player->receives)
            came += receive_text(player->receives, player->selects, scratch);
        if (player->replies)
            send_text(player->replies, 1, scratch);
    }
    free(scratch);
    player->came = came;
    return NULL;
}

/* Those that send through the first queue, and those that receive; how many there are. */
static long deal_flow(long senders, long receivers, long count, int by_type)
{
    long share = by_type ? senders * count : senders * count / receivers;
    for (long k = 0; k < senders; k++)
        players[k] = (struct player){
            .sends = &queues[0], .rounds = count, .types = by_type ? receivers : 1};
    for (long k = 0; k < receivers; k++)
        players[senders + k] = (struct player){
            .receives = &queues[0], .rounds = share, .selects = by_type ? k + 1 : 0};
    return senders + receivers;
}

static long deal_own(long threads, long count)
{
    for (long k = 0; k < threads; k++)
        players[k] = (struct player){
            .sends = &queues[k], .receives = &queues[k], .rounds = count, .types = 1};
    return threads;
}

static long deal_two(long count)
{
    players[0] = (struct player){
        .sends = &queues[0], .receives = &queues[1], .rounds = count, .types = 1};
    players[1] = (struct player){
        .receives = &queues[0], .replies = &queues[1], .rounds = count};
    return 2;
}

static size_t play_all(long threads)
{
    pthread_t made[2 * THREADS_MOST];
    size_t came = 0;
    for (long k = 0; k < threads; k++)
        if (pthread_create(&made[k], NULL, play, &players[k]) != 0)
            fail("pthread_create");
    for (long k = 0; k < threads; k++) {
        pthread_join(made[k], NULL);
        came += players[k].came;
    }
    return came;
}

static long number(const char *word)
{
    return strtol(word, NULL, 10);
}

int main(int argc, char **argv)
{
    if (argc < 8 || argc > 9) {
        fprintf(stderr, "peer_threads kernel|mutex flow|types|own|two BYTES COUNT SENDERS RECEIVERS "
                        "QUOTA [MOST]\n");
        return 2;
    }
    const char *word = argv[2];
    long count = number(argv[4]), senders = number(argv[5]), receivers = number(argv[6]);
    int by_type = strcmp(word, "types") == 0, is_own = strcmp(word, "own") == 0;
    of_kernel = strcmp(argv[1], "kernel") == 0;
    size = number(argv[3]);
    quota = number(argv[7]);
    if (argc > 8)
        most = number(argv[8]);
    if (size < 0 || size > TEXT_MOST || count < 0 || quota < 1 || quota > QUOTA_MOST || size > quota
        || most < 1 || senders < 1 || senders > THREADS_MOST || receivers < 1
        || receivers > THREADS_MOST || (!by_type && senders * count % receivers != 0)) {
        fprintf(stderr, "peer_threads: out of range\n");
        return 2;
    }
    memset(source, 'x', sizeof source);
    long made = is_own ? senders : 2;
    for (long k = 0; k < made; k++)
        make(&queues[k], by_type ? receivers : 1);
    long threads = is_own ? deal_own(senders, count)
                   : strcmp(word, "two") == 0 ? deal_two(count)
                   : deal_flow(senders, receivers, count, by_type);
    size_t came = play_all(threads);
    for (long k = 0; of_kernel && k < made; k++)
        msgctl(queues[k].id, IPC_RMID, NULL);
    printf("%zu bytes came\n", came);
    return 0;
}
