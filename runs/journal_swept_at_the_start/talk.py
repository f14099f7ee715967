import os
import subprocess
import sys
sys.path.insert(0, os.path.dirname(os.path.dirname(os.path.abspath(__file__))))
import tempfile
from clients import Server, creation, patch, reply

BODY = b'a' * 8 * 4096

with tempfile.TemporaryDirectory() as folder:
    for moment in ['1000', '2000']:
        words = [*sys.argv[1:-1], '--moment', moment, '--journal', os.path.join(folder, 'uploads'), sys.argv[-1]]
        server = Server(words, stderr=subprocess.PIPE)
        print(server.journal(), end='')
        with server.connect() as client:
            number = 1 if moment == '1000' else 2
            client.sendall(creation('acme', len(BODY) + 1) + patch(f'/files/acme/{number}', 0, BODY))
            print(reply(client)[0], reply(client)[0], sep='', end='')
        print(server.process.stdout.read(), end='')
        server.process.wait()
