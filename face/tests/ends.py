"""Ctrl-C, and an alarm whose handler raises, end a wait of the package sysv_ipc. With the
argument "control" no signal is sent, and it waits for ever."""
import os
import signal
import sys
import time

import sysv_ipc

IS_CONTROL = sys.argv[1:] == ["control"]


class Alarm(Exception):
    pass


def raises(_number, _frame):
    raise Alarm


def told(call, action):
    """How a call ends, and what is raised by its signal."""
    try:
        try:
            print(call, action())
        except (sysv_ipc.Error, OSError) as refusal:
            print(call, type(refusal).__name__, refusal)
    except (KeyboardInterrupt, Alarm) as signalled:
        print(call, type(signalled).__name__)
    signal.setitimer(signal.ITIMER_REAL, 0)


def alarmed(call, action):
    if not IS_CONTROL:
        signal.alarm(1)
    told(call, action)


def interrupted(call, action):
    """As Ctrl-C does, another process sends SIGINT."""
    own, child = os.getpid(), os.fork()
    if child == 0:
        time.sleep(1)
        os.kill(own, signal.SIGINT)
        os._exit(0)
    told(call, action)
    os.waitpid(child, 0)


def full():
    while True:
        try:
            queue.send(b"x" * 100, block=False)
        except sysv_ipc.BusyError:
            return


signal.signal(signal.SIGALRM, raises)
signal.signal(signal.SIGINT, signal.default_int_handler)
queue = sysv_ipc.MessageQueue(None, sysv_ipc.IPC_CREX, 0o600)
queue.max_size = 4096
alarmed("receive", queue.receive)
interrupted("receive", queue.receive)
full()
alarmed("send", lambda: queue.send(b"x" * 100))
interrupted("send", lambda: queue.send(b"x" * 100))
print("there", queue.current_messages)
queue.remove()
