import os
import subprocess
import sys
sys.path.insert(0, os.path.dirname(os.path.dirname(os.path.abspath(__file__))))
import tempfile
import time
from clients import Server, creation, patch, reply

with tempfile.TemporaryDirectory() as folder:
    words = [*sys.argv[1:], '--journal', os.path.join(folder, 'uploads')]
    server = Server([*words, '--forever'], stderr=subprocess.PIPE)
    print(server.journal(), end='')
    with server.connect() as client:
        client.sendall(creation('acme', 11) + patch('/files/acme/1', 0, b'hello ') + patch('/files/acme/1', 6, b'wo', length=5))
        print(reply(client)[0], reply(client)[0], sep='', end='')
        time.sleep(0.3)
        server.process.kill()
        server.process.wait()
    server = Server(words, stderr=subprocess.PIPE)
    print(server.journal(), end='')
    print(server.asked('HEAD', '/files/acme/1'), end='')
    with server.connect() as client:
        client.sendall(patch('/files/acme/1', 6, b'world') + creation('acme', 1))
        print(reply(client)[0], reply(client)[0], sep='', end='')
    print(server.asked('GET', '/files/acme/1'))
    server.end()
