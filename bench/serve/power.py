#!/usr/bin/env python3
"""Takes the power from `serve --journal` at random moments: all that no sync has brought to the disk is lost.

    bench/serve/power.py PROGRAM FOLDER KIND [LOSSES [SEED [amid]]]

FOLDER lies on a file system that clones files (XFS, or btrfs). The journal's folder lies on a file system of this KIND (ext4, xfs
or btrfs) in an image there. While the clients of kill.py are served, the server is stopped and the image is cloned: so the clone
has what was written to the disk, and nothing that the kernel still had in memory. The next server starts on the clone, and has to
have exactly what the replies told, and the change of a request that was under way or not. With the word `amid` each loss comes while a
smaller journal is being written, or has just taken the old one's place. It wants root, and prints one line of figures, or where it
found a fault.
"""
import os
import random
import subprocess
import sys
import tempfile
from kill import CLIENTS, Client, command_of, killed

IMAGE_BYTES = 400 << 20


class Disk:
    """A file system in an image, which is mounted."""

    def __init__(self, folder, kind):
        self.folder, self.images, self.mounted = folder, 0, os.path.join(folder, 'mounted')
        os.mkdir(self.mounted)
        with open(self.image(), 'wb') as image:
            image.truncate(IMAGE_BYTES)
        subprocess.run([f'mkfs.{kind}', '-q', self.image()], check=True)
        self.mount()

    def image(self):
        return os.path.join(self.folder, f'image-{self.images}')

    def mount(self):
        subprocess.run(['mount', '-o', 'loop', self.image(), self.mounted], check=True)

    def clone(self):
        subprocess.run(['cp', '--reflink=always', self.image(), os.path.join(self.folder, f'image-{self.images + 1}')], check=True)

    def go_on_with_the_clone(self):
        subprocess.run(['umount', self.mounted], check=True)
        os.remove(self.image())
        self.images += 1
        self.mount()

    def end(self):
        subprocess.run(['umount', self.mounted])


def main(program, folder, kind, losses=100, seed=1, amid=None):
    rng, clients = random.Random(int(seed)), [Client(number, int(seed), bool(amid)) for number in range(CLIENTS)]
    with tempfile.TemporaryDirectory(dir=folder) as images:
        disk = Disk(images, kind)
        journal = os.path.join(disk.mounted, 'uploads')
        command, new = command_of(program, journal, clients), os.path.join(journal, 'journal.new')
        halves = marks = 0
        try:
            for loss in range(1, int(losses) + 1):
                # Some live for seconds, in which the journal is marked while changes come.
                seconds = rng.random() * 0.3 if amid else 0.05 + rng.random() * (3 if loss % 5 == 0 else 0.25)
                killed(command, clients, seconds, awaited=amid and new, while_stopped=disk.clone)
                disk.go_on_with_the_clone()
                halves += os.path.exists(new)
                marks += os.path.exists(f'{journal}/journal.mark')
                for client in clients:
                    if client.fault:
                        sys.exit(f'loss {loss}: {client.fault}')
        finally:
            disk.end()
        requests, compared, ahead = (sum(getattr(client, name) for client in clients) for name in ('requests', 'compared', 'ahead'))
        print(f'{kind}: {losses} losses of power, {requests} replies, {ahead} times more was kept than was told; {compared} bytes '
              f'compared, {halves} times a smaller journal half written, {marks} times a mark was there: all was as told')


if __name__ == '__main__':
    main(*sys.argv[1:])
