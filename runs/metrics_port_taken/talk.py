import socket
import subprocess
import sys

with socket.create_server(('127.0.0.1', 0)) as taken:
    port = str(taken.getsockname()[1])
    ended = subprocess.run([*sys.argv[1:], '--metrics', port], stderr=subprocess.PIPE, text=True)
sys.stderr.write(ended.stderr.replace(port, 'PORT'))
sys.exit(ended.returncode)
