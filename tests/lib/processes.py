"""How a process is started."""
import os
import resource
import signal


def as_user(user, group=None, mask=None):
    """What `subprocess` needs to start a process by another user, who is in that group alone, and with a mask; None: by this one."""
    def become():
        if mask is not None:
            os.umask(mask)
        if user is not None:
            os.setgroups([])
            os.setgid(user if group is None else group)
            os.setuid(user)

    return {"preexec_fn": become} if user is not None or mask is not None else {}


def with_files_of(size):
    """What `subprocess` needs to start a process whose files may have so many bytes: a write beyond fails."""
    def limit():
        signal.signal(signal.SIGXFSZ, signal.SIG_IGN)
        resource.setrlimit(resource.RLIMIT_FSIZE, (size, resource.RLIM_INFINITY))

    return {"preexec_fn": limit, "restore_signals": False}


def with_closed(*streams):
    """What `subprocess` needs to start a process in which these streams are closed."""
    def close():
        for stream in streams:
            os.close(stream)

    return {"preexec_fn": close}
