"""Whether a server of a cluster may run, by its postmaster.pid."""
import os


def running_server(data):
    """What postmaster.pid says of a server that may run, or nothing. A crash leaves the file behind, with
    the number of a process that is gone. That of a single-user server is negative."""
    try:
        with open(f"{data}/postmaster.pid", encoding="ascii", errors="replace") as file:
            line = file.readline().strip()
    except FileNotFoundError:
        return None
    except OSError as error:
        return f"postmaster.pid: {error.strerror}"
    process = line.lstrip("-")
    if not process.isdigit() or int(process) == 0:
        return "postmaster.pid names no process"
    try:
        os.kill(int(process), 0)
    except ProcessLookupError:
        return None
    except (OSError, OverflowError):
        pass
    return f"postmaster.pid names process {process}, which runs"
