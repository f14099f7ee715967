#!/usr/bin/python3
"""Sends large files to `run`, by curl and by the Python client of tus, and through nginx with docs/nginx.conf.

    bench/proxy/large.py PROGRAM

wants Debian's python3, python3-tuspy, curl, nginx and openssl, and 4 GiB of memory. Each file comes in one PATCH: whole, and cut
off and resumed where HEAD says. The SHA-256 of each upload is compared with that of the file. It prints a line for each.
"""
import hashlib
import os
import re
import subprocess
import sys
import tempfile
import time
from parts import Nginx, free_port, wait_for

MIB = 1 << 20
CLIENT = '''
import sys
from tusclient import client
url, file, known, chunk = sys.argv[1:]
uploader = client.TusClient(url).uploader(file, chunk_size=int(chunk), **({'url': known} if known else {}))
if not known:
    uploader.set_url(uploader.create_url())
print(uploader.url, uploader.offset, flush=True)
uploader.upload()
'''


def made(folder, name, size):
    """A file of so many random bytes, with their SHA-256."""
    path, digest = f'{folder}/{name}', hashlib.sha256()
    with open(path, 'wb') as file:
        for _ in range(size // MIB):
            part = os.urandom(MIB)
            digest.update(part)
            file.write(part)
    return path, digest.hexdigest()


class Curl:
    """curl, which trusts this certificate, at the place where uploads are created."""

    def __init__(self, url, trust=None):
        self.url, self.words = url, ['curl', '-s', '-H', 'Tus-Resumable: 1.0.0', *(['--cacert', trust] if trust else [])]

    def ask(self, *words):
        return subprocess.run([*self.words, *words], capture_output=True, text=True).stdout

    def create(self, size):
        head = self.ask('-i', '-X', 'POST', '-H', f'Upload-Length: {size}', self.url)
        return self.url.rsplit('/files/', 1)[0] + re.search(r'Location: (\S+)', head).group(1)

    def offset(self, upload):
        return int(re.search(r'Upload-Offset: (\d+)', self.ask('-I', upload)).group(1))

    def patch(self, upload, file, offset, seconds=None):
        """Sends the file from this offset on in one PATCH, and is killed after so many seconds."""
        words = [*self.words, '-X', 'PATCH', '-H', f'Upload-Offset: {offset}', '-H', 'Content-Type: application/offset+octet-stream',
                 '-H', 'Expect: 100-continue', '-w', '%{http_code}', '-T', '-', upload]
        size = os.path.getsize(file) - offset
        words[1:1] = ['-H', f'Content-Length: {size}', '-H', 'Transfer-Encoding:', *(['--limit-rate', '100M'] if seconds else [])]
        with open(file, 'rb') as rest:
            rest.seek(offset)
            with subprocess.Popen(words, stdin=rest, stdout=subprocess.PIPE, text=True) as curl:
                if seconds:
                    time.sleep(seconds)
                    curl.kill()
                    return None
                return curl.communicate()[0]

    def end(self, what, upload, wanted):
        """Compares the bytes of an upload, says so, and deletes it."""
        with subprocess.Popen([*self.words, upload], stdout=subprocess.PIPE) as curl:
            got = hashlib.file_digest(curl.stdout, 'sha256').hexdigest()
        assert got == wanted, f'{what}: the bytes differ'
        print(f'ok   {what}', flush=True)
        self.ask('-X', 'DELETE', upload)


def by_curl(curl, where, file, wanted):
    size = os.path.getsize(file)
    upload = curl.create(size)
    assert curl.patch(upload, file, 0) == '204'
    curl.end(f'curl{where}: {size} bytes with Expect', upload, wanted)
    upload = curl.create(size)
    curl.patch(upload, file, 0, seconds=1)
    offset = curl.offset(upload)
    assert 0 < offset < size
    assert curl.patch(upload, file, offset) == '204'
    curl.end(f'curl{where}: {size} bytes, cut at {offset} and resumed', upload, wanted)


def by_client(curl, where, file, wanted, trust):
    """The client of tus sends the file in one chunk. A second time a HEAD ends its PATCH, and another client goes on."""
    size = os.path.getsize(file)
    how = {'stdout': subprocess.PIPE, 'text': True, 'env': {**os.environ, 'REQUESTS_CA_BUNDLE': trust or ''}}
    words = ['/usr/bin/python3', '-c', CLIENT, curl.url, file]
    for is_cut in (False, True):
        with subprocess.Popen([*words, '', str(size)], stderr=subprocess.DEVNULL, **how) as client:
            known, offset = client.stdout.readline().split()[0], 0
            while is_cut and offset == 0:
                offset = curl.offset(known)
        if is_cut:
            assert 0 < offset < size
            told = subprocess.run([*words, known, str(size)], check=True, **how).stdout
            assert int(told.split()[1]) == offset
        assert curl.offset(known) == size
        curl.end(f'tuspy{where}: {size} bytes in a chunk' + (f', ended at {offset} by a HEAD and resumed' if is_cut else ''), known, wanted)


def main():
    port = free_port()
    server = subprocess.Popen([sys.argv[1], 'run', '--port', str(port), 'acme:1GiB'], stdout=subprocess.PIPE, text=True)
    server.stdout.readline()
    wait_for(port)
    nginx = Nginx(port)
    trust = f'{nginx.folder}/cert.pem'
    with tempfile.TemporaryDirectory() as folder:
        film, chunk = made(folder, 'film', 1024 * MIB), made(folder, 'chunk', 200 * MIB)
        for curl, where, at in ((Curl(f'http://127.0.0.1:{port}/files/acme'), '', None),
                                (Curl(f'https://127.0.0.1:{nginx.port}/files/acme', trust), ' through nginx', trust)):
            by_curl(curl, where, *film)
            by_client(curl, where, *chunk, at)
    nginx.stop()
    server.kill()
    server.wait()


main()
