import os
import subprocess
import sys
sys.path.insert(0, os.path.dirname(os.path.dirname(os.path.abspath(__file__))))
import tempfile
from clients import Server, creation, names_in, patch, reply


def told(client):
    """The status of the next reply, and the end that it tells, if any."""
    head = reply(client)[0].splitlines()
    return ', '.join([head[0], *(line for line in head if line.startswith('Upload-Expires'))])


with tempfile.TemporaryDirectory() as parent:
    folder = os.path.join(parent, 'uploads')
    words = [*sys.argv[1:], '--journal', folder]
    server = Server([*words, 'acme:8'], stderr=subprocess.PIPE)
    print(server.journal(), end='')
    with server.connect() as client:
        client.sendall(creation('acme', 5) + patch('/files/acme/1', 0, b'hello') + creation('acme', 10))
        print(*[told(client) for _ in range(3)], sep='\n')
    server.process.kill()
    server.process.wait()
    refused = subprocess.run([*words, '--uploads', '1', 'acme:8'], capture_output=True, text=True)
    print(f'{refused.stdout}{refused.stderr}status {refused.returncode}')
    server = Server([*words, '--lifetime', '60', '--block-size', '16', 'acme:2', 'bolt:1'], stderr=subprocess.PIPE)
    print(server.journal(), end='')
    print(server.asked('GET', '/files/acme/1').rsplit('\r\n', 1)[1])
    with server.connect() as client:
        client.sendall(patch('/files/acme/2', 0, b'01234', length=5) + creation('bolt', 3) + creation('acme', 1))
        client.sendall(patch('/files/acme/3', 0, b'x'))
        print(*[told(client) for _ in range(4)], sep='\n')
    print(names_in(folder))
    server.process.kill()
