#!/usr/bin/env python3
"""How much memory `run` takes for clients that are amid a PATCH of 1 GiB.

    bench/serve/amid.py PROGRAM [CLIENTS]

has so many clients (1,000 unless told, at most 1,024) create an upload each, and send the head of a PATCH and some bytes of its
first piece, at random up to all but one. It prints the bytes that were sent, and by how many the server's memory grew.
It wants `ulimit -n 3000`.
"""
import random
import re
import socket
import sys
import time
from measure import MIB, Server, exchange, request

PORT = 18099
TENANTS = [f'tenant-{number}' for number in range(16)]
SIZE = 1024 * MIB
PIECE = 262144


def begin(server, number, some):
    """A client that has sent so many bytes of its PATCH."""
    client = socket.create_connection(('127.0.0.1', server.port))
    made = exchange(client, request('POST', f'/files/{TENANTS[number % 16]}', [f'Upload-Length: {SIZE}']))
    path = re.search(rb'Location: (\S+)', made).group(1).decode()
    head = request('PATCH', path, ['Upload-Offset: 0', 'Content-Type: application/offset+octet-stream'])
    client.sendall(head.replace(b'Content-Length: 0', b'Content-Length: %d' % SIZE) + bytes(some))
    return client


def main():
    program, count = sys.argv[1], int(sys.argv[2]) if len(sys.argv) > 2 else 1000
    words = [program, 'run', '--port', str(PORT), '--idle', '0', '--max-size', str(SIZE), *(f'{name}:1MiB' for name in TENANTS)]
    server = Server(PORT, words, range(1024))
    before, sent = server.resident(), [random.randrange(PIECE) for _ in range(count)]
    clients = [begin(server, number, some) for number, some in enumerate(sent)]
    time.sleep(3)
    print(f'{count} clients sent {sum(sent) / MIB:.0f} MiB, and memory grew by {(server.resident() - before) / MIB:.0f} MiB')
    for client in clients:
        client.close()
    server.process.terminate()
    server.process.wait()


main()
