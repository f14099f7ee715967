import os
import subprocess
import sys
sys.path.insert(0, os.path.dirname(os.path.dirname(os.path.abspath(__file__))))
import tempfile
from clients import Server, asked_at, creation, everything, field, frames_in, free_port, patch, reply

with tempfile.TemporaryDirectory() as folder:
    words = [*sys.argv[1:], '--journal', os.path.join(folder, 'uploads'), '--metrics']
    port = free_port()
    server = Server([*words, str(port)], stderr=subprocess.PIPE)
    print(server.journal(), end='')
    client = server.connect()
    client.sendall(creation('acme', 5) + patch('/files/acme/1', 0, b'hello') + creation('acme', 10))
    for _ in range(3):
        print(reply(client)[0].splitlines()[0])
    client.sendall(patch('/files/acme/2', 0, b'wor', length=10))
    print('POST /stop', asked_at(port, 'POST /stop').splitlines()[0])
    print('cut off:', everything(client))
    print(f'{server.process.stdout.read()}status {server.process.wait()}')
    journal = os.path.join(folder, 'uploads', 'journal')
    with open(journal, 'rb') as file, open(f'{journal}.mark') as mark:
        print('marked:', mark.read() == f'{os.stat(journal).st_ino} {frames_in(file.read())[1]}\n')
    port = free_port()
    server = Server([*words, str(port)], stderr=subprocess.PIPE)
    print(server.journal(), end='')
    for path in ['/files/acme/1', '/files/acme/2']:
        print(path, field(server.asked('HEAD', path), 'Upload-Offset'))
    print(server.asked('GET', '/files/acme/1').rsplit('\r\n', 1)[1])
    print('POST /stop', asked_at(port, 'POST /stop').splitlines()[0])
    server.end()
