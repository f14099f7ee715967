import os
import subprocess
import sys
sys.path.insert(0, os.path.dirname(os.path.dirname(os.path.abspath(__file__))))
from clients import PATCH, creation, patch, request

BODY = bytes(place * 7 % 251 for place in range(200000))

messages = creation('acme', len(BODY))
messages += patch('/files/acme/1', 0, BODY)
messages += request('HEAD', '/files/acme/1')
messages += request('POST', '/files/acme', f'Upload-Length: {len(BODY)}', *PATCH, body=BODY[:150000])
messages += patch('/files/acme/2', 150000, BODY[150000:])
messages += request('GET', '/files/acme/1')
messages += request('GET', '/files/acme/2')
messages += patch('/files/acme/2', 0, BODY)
told = subprocess.run(sys.argv[1:], input=messages, stdout=subprocess.PIPE, check=True).stdout
print(told.replace(BODY, b'(the body)').replace(b'\r\n', b'\n').decode(), end='')
