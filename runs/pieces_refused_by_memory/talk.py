import os
import sys
sys.path.insert(0, os.path.dirname(os.path.dirname(os.path.abspath(__file__))))
import resource
from clients import Server, asked_at, creation, everything, field, free_port, patch, reply, request, status

SIZE = 240 << 20
PIECE = 262144


def may_have(process, most):
    """Lets a process have so many bytes of addresses."""
    resource.prlimit(process.pid, resource.RLIMIT_AS, (most, resource.RLIM_INFINITY))


def held(process):
    """How many bytes of addresses it has."""
    with open(f'/proc/{process.pid}/statm') as told:
        return int(told.read().split()[0]) * resource.getpagesize()


def offset():
    with server.connect() as client:
        client.sendall(request('HEAD', '/files/acme/2'))
        return field(reply(client)[0], 'Upload-Offset')


port = free_port()
server = Server([*sys.argv[1:], '--metrics', str(port)])
client = server.connect()
client.sendall(creation('acme', 2 * PIECE) + patch('/files/acme/1', 0, bytes(2 * PIECE)) + creation('acme', SIZE))
print([status(client) for _ in range(3)])
may_have(server.process, held(server.process))
client.sendall(patch('/files/acme/2', 0, bytes(PIECE), length=SIZE))
lines = everything(client).splitlines()
print(lines[0], lines[-1], 'at', offset())
may_have(server.process, resource.RLIM_INFINITY)
with server.connect() as client:
    client.sendall(patch('/files/acme/2', 0, bytes(2 * PIECE), length=SIZE))
    client.shutdown(1)
    everything(client)
print('at', offset())
print(asked_at(port, 'POST /stop', 'Content-Length: 0').splitlines()[0])
server.end()
