/* Runs a script of mqsim on the kernel's System V message queues: the program that bench/run.sh
   times mqsim against. It reads the script on standard input, whole, makes each line's call with
   IPC_NOWAIT, and writes the same answers, for all commands but `ipcs` and `arena`.

   - A message's text is carried behind a header of 16 bytes with its tag, whole length and seat,
     which the kernel does not keep. The kernel counts it: of texts of which fewer than 16 bytes
     are wanting to the kernel's msgmax, and where only the headers are too much for the quota,
     its answer is not mqsim's. `stat` leaves the headers out of `cbytes`.
   - Each queue is made with IPC_PRIVATE. Ids, keys and the numbers after `at` are counted here,
     so that a removed id answers EIDRM for good, and a key meets no queue of another program.
   - lspid and lrpid are process ids, the times are seconds.
   - A quota that is not set is the kernel's msgmnb. A privileged user may set one over that;
     mqsim answers EPERM.
   - A size that is over any text is taken, as mqsim does; the kernel refuses one of 2^63.
   - It is less strict than mqsim about lines that are not well formed, and names no cause.

   All queues are removed at the end, and at SIGINT, SIGTERM and SIGHUP. */
#define _GNU_SOURCE
#include <errno.h>
#include <signal.h>
#include <stdint.h>
#include <stdio.h>
#include <stdlib.h>
#include <string.h>
#include <sys/ipc.h>
#include <sys/msg.h>
#include <unistd.h>

enum {
    SCRIPT_MOST = 1048576,
    TEXT_MOST = 65536,
    SLOTS = 16,
    ID_SLOTS = 64,
    LAST_SEQ = 32767,
    OUTPUT_SIZE = 65536
};

struct header {
    uint64_t tag;
    uint32_t length;
    uint32_t seat;
};

struct message {
    long type;
    struct header header;
    char text[TEXT_MOST];
};

struct slot {
    int live;
    int queue;
    int32_t key;
    uint32_t made;
    uint64_t entries;
    uint64_t first;
};

struct line {
    const char *at;
    const char *end;
    uint64_t number;
};

static struct slot slots[SLOTS];
static struct message message;
static char script[SCRIPT_MOST + 1];
static char letters[TEXT_MOST];
static char output[OUTPUT_SIZE];
static size_t output_used;
static uint32_t seat = 1;

/* The end of a run. */

static void remove_queues(void)
{
    for (int i = 0; i < SLOTS; i++)
        if (slots[i].live)
            msgctl(slots[i].queue, IPC_RMID, NULL);
}

static void stopped(int number)
{
    remove_queues();
    _exit(128 + number);
}

_Noreturn static void fail(const char *what, int status)
{
    remove_queues();
    fprintf(stderr, "kernel_queues: %s\n", what);
    exit(status);
}

/* Output. */

static void flush(void)
{
    size_t done = 0;
    while (done < output_used) {
        ssize_t count = write(STDOUT_FILENO, output + done, output_used - done);
        if (count <= 0)
            fail("write failed", 4);
        done += (size_t)count;
    }
    output_used = 0;
}

static void put_bytes(const char *bytes, size_t length)
{
    if (length > OUTPUT_SIZE - output_used)
        flush();
    memcpy(output + output_used, bytes, length);
    output_used += length;
}

static void put_word(const char *word)
{
    put_bytes(word, strlen(word));
}

static void put_number(uint64_t number)
{
    char digits[20];
    size_t at = sizeof digits;
    do {
        digits[--at] = (char)('0' + number % 10);
        number /= 10;
    } while (number > 0);
    put_bytes(digits + at, sizeof digits - at);
}

static void put_named(const char *name, uint64_t number)
{
    put_word(name);
    put_number(number);
}

static void put_refusal(void)
{
    put_word(strerrorname_np(errno));
    put_word("\n");
}

/* Words and numbers of a line. */

_Noreturn static void not_understood(const struct line *line)
{
    char what[64];
    flush();
    snprintf(what, sizeof what, "line %llu: not understood", (unsigned long long)line->number);
    fail(what, 1);
}

static struct line next_word(struct line *line)
{
    const char *space = memchr(line->at, ' ', (size_t)(line->end - line->at));
    struct line word = {line->at, space ? space : line->end, line->number};
    if (word.at == word.end)
        not_understood(line);
    line->at = space ? space + 1 : line->end;
    return word;
}

static int is_word(struct line word, const char *wanted)
{
    size_t length = (size_t)(word.end - word.at);
    return length == strlen(wanted) && memcmp(word.at, wanted, length) == 0;
}

static uint64_t read_digits(struct line word, uint64_t most)
{
    uint64_t number = 0;
    if (word.at == word.end || (*word.at == '0' && word.end - word.at > 1))
        not_understood(&word);
    for (; word.at < word.end; word.at++) {
        uint64_t digit = (uint64_t)(*word.at - '0');
        if (digit > 9 || number > (most - digit) / 10)
            not_understood(&word);
        number = number * 10 + digit;
    }
    return number;
}

static uint64_t next_number(struct line *line, uint64_t most)
{
    return read_digits(next_word(line), most);
}

static int64_t next_signed(struct line *line, int64_t most)
{
    struct line word = next_word(line);
    if (*word.at != '-')
        return (int64_t)read_digits(word, (uint64_t)most);
    word.at++;
    uint64_t size = read_digits(word, (uint64_t)most + 1);
    if (size == 0)
        not_understood(line);
    return -(int64_t)(size - 1) - 1;
}

static void end_of(const struct line *line)
{
    if (line->at != line->end)
        not_understood(line);
}

/* Ids and slots. */

static uint32_t id_of(const struct slot *slot)
{
    return (slot->made - 1) * ID_SLOTS + (uint32_t)(slot - slots);
}

static struct slot *live_slot(uint32_t id)
{
    struct slot *slot = &slots[id % ID_SLOTS];
    if (id % ID_SLOTS >= SLOTS || id / ID_SLOTS >= slot->made) {
        errno = EINVAL;
        return NULL;
    }
    if (!slot->live || id_of(slot) != id) {
        errno = EIDRM;
        return NULL;
    }
    return slot;
}

static struct slot *slot_with_key(int32_t key)
{
    for (int i = 0; i < SLOTS; i++)
        if (slots[i].live && slots[i].key == key)
            return &slots[i];
    return NULL;
}

static struct slot *free_slot(void)
{
    for (int i = 0; i < SLOTS; i++)
        if (!slots[i].live && slots[i].made <= LAST_SEQ)
            return &slots[i];
    return NULL;
}

static void put_entry(struct slot *slot)
{
    put_named("at ", slot->entries++);
}

/* Commands. */

static struct slot *make_queue(int32_t key)
{
    struct slot *slot = free_slot();
    if (!slot) {
        errno = ENOSPC;
        return NULL;
    }
    slot->queue = msgget(IPC_PRIVATE, 0600);
    if (slot->queue < 0)
        return NULL;
    slot->live = 1;
    slot->key = key;
    slot->made++;
    slot->first = slot->entries++;
    return slot;
}

static struct slot *get_queue(int32_t key, int create, int exclusive)
{
    struct slot *found = key == 0 ? NULL : slot_with_key(key);
    if (found && create && exclusive) {
        errno = EEXIST;
        return NULL;
    }
    if (found)
        return found;
    if (key != 0 && !create) {
        errno = ENOENT;
        return NULL;
    }
    return make_queue(key);
}

static void get(struct line *line)
{
    int32_t key = (int32_t)next_signed(line, INT32_MAX);
    struct line flags = {line->end, line->end, line->number};
    if (line->at < line->end)
        flags = next_word(line);
    end_of(line);
    int both = is_word(flags, "cx");
    int create = both || is_word(flags, "c");
    int exclusive = both || is_word(flags, "x");
    if (flags.at != flags.end && !create && !exclusive)
        not_understood(line);
    struct slot *slot = get_queue(key, create, exclusive);
    if (!slot) {
        put_refusal();
        return;
    }
    put_named("id ", id_of(slot));
    put_word("\n");
}

/* Points `from` at the text's bytes and returns their number. Letters are there for the first
   65,536 bytes alone. */
static uint64_t read_text(struct line *line, const char **from)
{
    struct line text = *line;
    if (text.at == text.end || (*text.at != '=' && *text.at != '*'))
        not_understood(line);
    text.at++;
    *from = text.at[-1] == '=' ? text.at : letters;
    if (text.at[-1] == '*')
        return read_digits(text, UINT64_MAX);
    return (uint64_t)(text.end - text.at);
}

/* Makes the message of a `snd`. */
static void fill_message(long type, uint64_t tag, const char *from, uint32_t length)
{
    message.type = type;
    message.header = (struct header){tag, length, seat};
    memcpy(message.text, from, length);
}

static int send_text(struct slot *slot, size_t length)
{
    return msgsnd(slot->queue, &message, sizeof message.header + length, IPC_NOWAIT);
}

static void snd(struct line *line)
{
    uint32_t id = (uint32_t)next_number(line, UINT32_MAX);
    long type = next_signed(line, INT64_MAX);
    const char *from;
    uint64_t length = read_text(line, &from);
    struct slot *slot = live_slot(id);
    if (length > TEXT_MOST || type < 1) {
        errno = EINVAL;
        put_refusal();
        return;
    }
    fill_message(type, line->number, from, (uint32_t)length);
    if (!slot || send_text(slot, length) != 0) {
        put_refusal();
        return;
    }
    put_entry(slot);
    put_word("\n");
}

static int receive_flags(struct line *line)
{
    if (line->at == line->end)
        return IPC_NOWAIT;
    struct line flags = next_word(line);
    end_of(line);
    if (is_word(flags, "e"))
        return IPC_NOWAIT | MSG_EXCEPT;
    if (is_word(flags, "n"))
        return IPC_NOWAIT | MSG_NOERROR;
    if (!is_word(flags, "en"))
        not_understood(line);
    return IPC_NOWAIT | MSG_EXCEPT | MSG_NOERROR;
}

static void put_message(size_t copied)
{
    put_named("msg ", (uint64_t)message.type);
    put_named(" seat ", message.header.seat);
    put_named(" tag ", message.header.tag);
    put_named(" len ", message.header.length);
    put_word(" =");
    put_bytes(message.text, copied);
    put_word("\n");
}

static void rcv(struct line *line)
{
    uint32_t id = (uint32_t)next_number(line, UINT32_MAX);
    uint64_t size = next_number(line, UINT64_MAX);
    long type = next_signed(line, INT64_MAX);
    int flags = receive_flags(line);
    struct slot *slot = live_slot(id);
    if (!slot) {
        put_refusal();
        return;
    }
    size_t room = sizeof message.header + (size < TEXT_MOST ? size : TEXT_MOST);
    ssize_t count = msgrcv(slot->queue, &message, room, type, flags);
    if (count < 0) {
        put_refusal();
        return;
    }
    slot->entries++;
    put_message((size_t)count - sizeof message.header);
}

static void set(struct line *line)
{
    uint32_t id = (uint32_t)next_number(line, UINT32_MAX);
    uint64_t quota = next_number(line, UINT64_MAX);
    end_of(line);
    struct msqid_ds values = {.msg_qbytes = quota};
    values.msg_perm.uid = geteuid();
    values.msg_perm.gid = getegid();
    values.msg_perm.mode = 0600;
    struct slot *slot = live_slot(id);
    if (!slot || msgctl(slot->queue, IPC_SET, &values) != 0) {
        put_refusal();
        return;
    }
    put_entry(slot);
    put_word("\n");
}

static void rm(struct line *line)
{
    struct slot *slot = live_slot((uint32_t)next_number(line, UINT32_MAX));
    end_of(line);
    if (!slot || msgctl(slot->queue, IPC_RMID, NULL) != 0) {
        put_refusal();
        return;
    }
    slot->live = 0;
    put_entry(slot);
    put_named(" events ", slot->entries - slot->first);
    put_word("\n");
}

static void put_figures(const struct msqid_ds *values)
{
    put_named("qnum ", values->msg_qnum);
    put_named(" cbytes ", values->msg_cbytes - values->msg_qnum * sizeof message.header);
    put_named(" qbytes ", values->msg_qbytes);
    put_named(" lspid ", (uint64_t)values->msg_lspid);
    put_named(" lrpid ", (uint64_t)values->msg_lrpid);
    put_named(" stime ", (uint64_t)values->msg_stime);
    put_named(" rtime ", (uint64_t)values->msg_rtime);
    put_named(" ctime ", (uint64_t)values->msg_ctime);
    put_word("\n");
}

static void stat(struct line *line)
{
    struct msqid_ds values;
    struct slot *slot = live_slot((uint32_t)next_number(line, UINT32_MAX));
    end_of(line);
    if (!slot || msgctl(slot->queue, IPC_STAT, &values) != 0) {
        put_refusal();
        return;
    }
    put_figures(&values);
}

static void change_seat(struct line *line)
{
    seat = (uint32_t)next_number(line, 16);
    end_of(line);
    if (seat == 0)
        not_understood(line);
}

/* The run. */

static void run_line(struct line line)
{
    if (line.at == line.end || *line.at == '#')
        return;
    struct line word = next_word(&line);
    if (is_word(word, "snd"))
        snd(&line);
    else if (is_word(word, "rcv"))
        rcv(&line);
    else if (is_word(word, "stat"))
        stat(&line);
    else if (is_word(word, "set"))
        set(&line);
    else if (is_word(word, "seat"))
        change_seat(&line);
    else if (is_word(word, "get"))
        get(&line);
    else if (is_word(word, "rm"))
        rm(&line);
    else
        not_understood(&line);
}

static void run_script(const char *at, const char *end)
{
    for (uint64_t number = 1; at < end; number++) {
        const char *feed = memchr(at, '\n', (size_t)(end - at));
        const char *stop = feed ? feed : end;
        const char *next = feed ? feed + 1 : end;
        if (stop > at && stop[-1] == '\r')
            stop--;
        run_line((struct line){at, stop, number});
        at = next;
    }
}

static size_t read_script(void)
{
    size_t length = 0;
    for (;;) {
        ssize_t count = read(STDIN_FILENO, script + length, sizeof script - length);
        if (count < 0)
            fail("read failed", 3);
        if (count == 0)
            return length;
        length += (size_t)count;
        if (length > SCRIPT_MOST)
            fail("script too long", 1);
    }
}

int main(void)
{
    signal(SIGPIPE, SIG_IGN);
    signal(SIGINT, stopped);
    signal(SIGTERM, stopped);
    signal(SIGHUP, stopped);
    for (size_t i = 0; i < sizeof letters; i++)
        letters[i] = (char)('a' + i % 26);
    size_t length = read_script();
    run_script(script, script + length);
    flush();
    remove_queues();
    return 0;
}
