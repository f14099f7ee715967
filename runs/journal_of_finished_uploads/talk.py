import os
import subprocess
import sys
sys.path.insert(0, os.path.dirname(os.path.dirname(os.path.abspath(__file__))))
import tempfile
from clients import Server, creation, patch, reply


def told(client):
    """The status of the next reply, and whether it tells an end."""
    head = reply(client)[0]
    return f"{head.splitlines()[0]}, {'Upload-Expires' in head}"


def finishes(words, number):
    """Starts a server that takes a whole upload, the one of this number, and kills it."""
    server = Server(words, stderr=subprocess.PIPE)
    print(server.journal(), end='')
    with server.connect() as client:
        client.sendall(creation('acme', 5) + patch(f'/files/acme/{number}', 0, b'hello'))
        print(told(client), told(client), sep='\n')
    for earlier in range(1, number):
        print(server.asked('GET', f'/files/acme/{earlier}').rsplit('\r\n', 1)[1])
    server.process.kill()
    server.process.wait()


with tempfile.TemporaryDirectory() as parent:
    folder = os.path.join(parent, 'uploads')
    words = [*sys.argv[1:], '--journal', folder]
    finishes([*words, 'acme:8'], 1)
    finishes([*words, '--finished-lifetime', '1000', 'acme:8'], 2)
    refused = subprocess.run([*words, 'acme:8'], capture_output=True, text=True)
    print(f'{refused.stdout}{refused.stderr}status {refused.returncode}')
    finishes([*words, '--finished-lifetime', '2000', 'acme:8'], 3)
    with open(os.path.join(folder, 'settings')) as settings:
        print(*settings.read().split()[:3])
