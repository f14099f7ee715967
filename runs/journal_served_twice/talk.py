import os
import sys
sys.path.insert(0, os.path.dirname(os.path.dirname(os.path.abspath(__file__))))
import subprocess
import tempfile
from clients import Server

with tempfile.TemporaryDirectory() as folder:
    path = os.path.join(folder, 'uploads')
    words = [*sys.argv[1:], '--journal', path]
    server = Server(words, stderr=subprocess.PIPE)
    second = subprocess.run(words, capture_output=True, text=True, check=False)
    print(second.returncode, second.stdout, second.stderr.replace(path, 'FILE'))
    print(server.asked('HEAD', '/files/acme/1'), end='')
    server.end()
