import os
import subprocess
import sys
sys.path.insert(0, os.path.dirname(os.path.dirname(os.path.abspath(__file__))))
import tempfile
from clients import Server, creation, patch, reply, request

BODY = b'a' * 1_000_000

with tempfile.TemporaryDirectory() as folder:
    words = [*sys.argv[1:], '--journal', os.path.join(folder, 'uploads')]
    server = Server(words, restore_signals=False, stderr=subprocess.PIPE)
    with server.connect() as client:
        for number in range(1, 6):
            client.sendall(creation('acme', len(BODY)))
            reply(client)
            client.sendall(patch(f'/files/acme/{number}', 0, BODY))
            print(number, *reply(client), sep='\n')
        client.sendall(request('HEAD', '/files/acme/5'))
        print(reply(client, has_body=False)[0], end='')
        client.sendall(request('GET', '/files/acme/4'))
        print(reply(client)[1] == BODY)
        client.sendall(request('DELETE', '/files/acme/1', 'Connection: close'))
        print(reply(client)[0], end='')
    print(server.process.stdout.read(), end='')
    server.process.wait()
    server = Server(words, restore_signals=False, stderr=subprocess.PIPE)
    print(server.journal(), end='')
    print(server.asked('HEAD', '/files/acme/1'), end='')
    server.end()
