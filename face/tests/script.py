"""Random scripts of calls by the package sysv_ipc, as tests/script.c has them."""
import os
import sys

import sysv_ipc

FIRST, RUNS = int(sys.argv[1]), int(sys.argv[2])
KEY = 0x46000000 + (os.getpid() & 0xFFFF) * 16
state = 0
queues = {}


def below(limit):
    global state
    state = (state * 1103515245 + 12345) % 4294967296
    return state // 65536 % limit


def told(call, action):
    """What a call answers, or how it is refused."""
    try:
        print(call, action())
    except (sysv_ipc.Error, OSError, ValueError) as refusal:
        print(call, type(refusal).__name__, getattr(refusal, "errno", None))


def made(place, flags):
    queue = sysv_ipc.MessageQueue(KEY + place, flags, 0o600)
    if place in queues and queues[place].id == queue.id:
        return "found"
    queues[place] = queue
    queue.max_size = 4096
    return f"new {queue.mode & 0o777:o}"


def get():
    place = below(3)
    flags = (sysv_ipc.IPC_CREAT, sysv_ipc.IPC_CREX, 0)[below(3)]
    told("get", lambda: made(place, flags))


def send(queue):
    text = bytes(97 + below(26) for _ in range(below(200)))
    told("send", lambda: queue.send(text, block=False, type=1 + below(5)))


def receive(queue):
    wanted = below(13) - 6
    told("receive", lambda: queue.receive(block=False, type=wanted))


def show(queue):
    told("stat", lambda: (queue.current_messages, queue.max_size, queue.last_send_time != 0,
                          queue.last_receive_time != 0, queue.last_send_pid == os.getpid(),
                          queue.last_receive_pid == os.getpid(), queue.mode & 0o777))


def change(queue):
    size = below(2000)
    told("set", lambda: setattr(queue, "max_size", size))


def one():
    which, queue = below(20), queues.get(below(3))
    if which < 4:
        get()
    elif queue is None:
        return
    elif which < 9:
        send(queue)
    elif which < 14:
        receive(queue)
    elif which < 17:
        show(queue)
    elif which < 18:
        change(queue)
    elif which < 19:
        told("remove", queue.remove)


sysv_ipc.MessageQueue(None, sysv_ipc.IPC_CREX, 0o600).remove()
for seed in range(FIRST, FIRST + RUNS):
    state = seed
    queues = {}
    print("seed", seed)
    for _ in range(80):
        one()
    for place in sorted(queues):
        told("end", queues[place].remove)
