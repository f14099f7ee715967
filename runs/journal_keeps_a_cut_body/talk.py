import os
import subprocess
import sys
sys.path.insert(0, os.path.dirname(os.path.dirname(os.path.abspath(__file__))))
import tempfile
from clients import Server, creation, everything, field, patch, reply

with tempfile.TemporaryDirectory() as folder:
    words = [*sys.argv[1:], '--journal', os.path.join(folder, 'uploads')]
    server = Server(words, stderr=subprocess.PIPE)
    print(server.journal(), end='')
    client = server.connect()
    client.sendall(creation('acme', 10))
    print(reply(client)[0].splitlines()[0])
    client.sendall(patch('/files/acme/1', 0, b'hello', length=10))
    print('cut off:', everything(client))
    print(f'{server.process.stdout.read()}status {server.process.wait()}')
    server = Server(words, stderr=subprocess.PIPE)
    print(server.journal(), end='')
    print('/files/acme/1', field(server.asked('HEAD', '/files/acme/1'), 'Upload-Offset'))
    server.end()
