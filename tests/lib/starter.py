"""A process that starts those of the program, so that no end that keeps times waits for a start."""
import itertools
import json
import os
import selectors
import signal
import socket

HELD = 250


class Starter:
    """A process that starts those of the program, so that no end that keeps times waits for a start. Their outputs go into files."""

    def __init__(self, loop):
        self.loop, self.ends, self.numbers = loop, {}, itertools.count()
        self.channel, other = socket.socketpair(socket.AF_UNIX, socket.SOCK_SEQPACKET)
        self.id = os.fork()
        if self.id == 0:
            try:
                self.channel.close()
                start_and_tell(other)
            finally:
                os._exit(0)
        other.close()
        loop.watch(self.channel, self.hear)

    def start(self, words, path, environment, ended):
        """Starts a process, and calls `ended` with its status. Its number is the result."""
        number = next(self.numbers)
        self.ends[number] = ended
        self.channel.send(json.dumps([number, words, path, environment]).encode())
        return number

    def stop(self, number):
        self.channel.send(json.dumps([number]).encode())

    def hear(self):
        number, status = json.loads(self.channel.recv(65536))
        self.ends.pop(number)(status)

    def close(self):
        self.loop.forget(self.channel)
        self.channel.close()
        os.waitpid(self.id, 0)


def start_and_tell(channel):
    """Starts or stops what is asked for over this channel and reports how each ended, until the channel is closed."""
    selector, processes = selectors.DefaultSelector(), {}
    selector.register(channel, selectors.EVENT_READ)
    while True:
        for key, _ in selector.select():
            if key.data:
                number, process = key.data
                selector.unregister(key.fd)
                os.close(key.fd)
                del processes[number]
                status = os.waitpid(process, 0)[1]
                channel.send(json.dumps([number, -os.WTERMSIG(status) if os.WIFSIGNALED(status) else os.WEXITSTATUS(status)]).encode())
            elif request := channel.recv(65536):
                number, *start = json.loads(request)
                if start:
                    processes[number], ends = started(*start)
                    selector.register(ends, selectors.EVENT_READ, (number, processes[number]))
                elif number in processes:
                    os.kill(processes[number], signal.SIGKILL)
            else:
                return


def started(words, path, environment):
    """The process of these words, with a file of this path for each output; and an end of a pipe at which nothing more comes once it has ended."""
    flags = os.O_WRONLY | os.O_CREAT | os.O_TRUNC
    actions = [
        (os.POSIX_SPAWN_OPEN, 0, "/dev/null", os.O_RDONLY, 0),
        (os.POSIX_SPAWN_OPEN, 1, f"{path}.out", flags, 0o600),
        (os.POSIX_SPAWN_OPEN, 2, f"{path}.err", flags, 0o600),
    ]
    ends, held = os.pipe()
    # (the process has it under a number that nothing else has)
    actions.append((os.POSIX_SPAWN_DUP2, held, HELD))
    process = os.posix_spawn(words[0], words, {**os.environ, **environment}, file_actions=actions)
    os.close(held)
    return process, ends
