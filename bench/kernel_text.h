/* A text of the kernel's System V message queues. Where the kernel takes none of its length in one
   call, it goes in pieces, each of which is a message of the first bytes. */
#include <sys/msg.h>
#include <sys/types.h>

enum { TEXT_MOST = 65536 };

struct text {
    long type;
    char bytes[TEXT_MOST];
};

/* The next piece, where so many bytes are left of a text and a piece has at most so many. */
static inline long piece_of(long left, long most)
{
    return left < most ? left : most;
}

/* Sends a text of that size, and waits for room. Whether it was sent. */
static inline int send_whole(int queue, const struct text *text, long size, long most)
{
    long left = size;
    do {
        long length = piece_of(left, most);
        if (msgsnd(queue, text, length, 0) != 0)
            return 0;
        left -= length;
    } while (left > 0);
    return 1;
}

/* Receives as many messages of that type, or of any where it is 0, as a text of that size has pieces,
   and waits for them. How many bytes were received, or -1. */
static inline long receive_whole(int queue, struct text *text, long type, long size, long most)
{
    long left = size, came = 0;
    do {
        ssize_t length = msgrcv(queue, text, TEXT_MOST, type, 0);
        if (length < 0)
            return -1;
        came += length;
        left -= piece_of(left, most);
    } while (left > 0);
    return came;
}
