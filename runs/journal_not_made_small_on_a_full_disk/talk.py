import fcntl
import os
import resource
import socket
import subprocess
import sys
sys.path.insert(0, os.path.dirname(os.path.dirname(os.path.abspath(__file__))))
import tempfile
from clients import creation, names_in, patch, request, status

MIB = 1 << 20
KEPT = b'kept' * (MIB // 2)
PASSING = bytes(16 * MIB)


def allow(process, most):
    """Lets files of a process have so many bytes, or as many as they may ever have."""
    _, hard = resource.prlimit(process, resource.RLIMIT_FSIZE)
    resource.prlimit(process, resource.RLIMIT_FSIZE, (hard if most is None else most, hard))


def full_pipe():
    """A pipe in which there is no room for a byte until its one line was read."""
    reading, writing = os.pipe()
    size = fcntl.fcntl(writing, fcntl.F_SETPIPE_SZ, 4096)
    os.write(writing, b' ' * (size - 1) + b'\n')
    return os.fdopen(reading), writing


with tempfile.TemporaryDirectory() as parent:
    folder = os.path.join(parent, 'uploads')
    journal = os.path.join(folder, 'journal')
    program, command, *options = sys.argv[1:]
    changes = creation('acme', len(KEPT)) + patch('/files/acme/1', 0, KEPT)
    for number in (2, 3, 4, 5):
        path = f'/files/acme/{number}'
        changes += creation('acme', len(PASSING)) + patch(path, 0, PASSING) + request('DELETE', path)
    subprocess.run([program, 'talk', '--journal', folder, *options], input=changes, stdout=subprocess.DEVNULL, check=True)
    large = os.path.getsize(journal)

    # Before it takes anybody in it waits to tell its port. Meanwhile its disk becomes full.
    output, writing = full_pipe()
    words = [program, command, '--journal', folder, '--workers', '1', '--connections', '2', *options]
    server = subprocess.Popen(words, stdout=writing, stderr=subprocess.PIPE, text=True, restore_signals=False)
    os.close(writing)
    print(server.stderr.readline().split(', read')[0])
    allow(server.pid, MIB)
    output.readline()
    port = int(output.readline().rsplit(':', 1)[1])
    print(server.stderr.readline(), end='')
    print(*names_in(folder))
    allow(server.pid, None)
    for _ in range(2):
        with socket.create_connection(('127.0.0.1', port), timeout=30) as client:
            client.sendall(creation('acme', 1))
            print(status(client))
    print(output.read(), server.stderr.read(), server.wait(), sep='')
    print('as large:', os.path.getsize(journal) >= large)
