import os
import subprocess
import sys
sys.path.insert(0, os.path.dirname(os.path.dirname(os.path.abspath(__file__))))
import tempfile
from clients import creation, field, patch, request

BODY = bytes(place * 7 % 251 for place in range(200000))
CUTS = [0, 1, 65535, 65536, 65537, 131071, 131072, 131073, 196607, 196608, 196609, 199999, 200000]

with tempfile.TemporaryDirectory() as folder:
    def told(messages):
        """What is told in a conversation on the journal."""
        words = [*sys.argv[1:], '--journal', os.path.join(folder, 'uploads')]
        return subprocess.run(words, input=messages, stdout=subprocess.PIPE, check=True).stdout

    for number, cut in enumerate(CUTS, 1):
        path = f'/files/acme/{number}'
        replies = told(creation('acme', len(BODY)) + patch(path, 0, BODY[:cut], length=len(BODY))).count(b'HTTP/1.1 ')
        offset = int(field(told(request('HEAD', path)).decode(), 'Upload-Offset'))
        rest = told(patch(path, offset, BODY[offset:]) + request('GET', path))
        print(cut, replies, offset, rest.endswith(b'\r\n\r\n' + BODY))
