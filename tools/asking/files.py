# Files that are written: whole, or not at all.

import errno
import os
import shutil

from .values import BadUse, told


def real(path):
    """The file that a link leads to: writers of one file meet at one lock, and the link stays."""
    return os.path.realpath(path) if os.path.islink(path) else path


def replace(path, octets):
    """Writes a file beside it and renames, so that it is the old one or the new one."""
    beside = path + '.new'
    with told(f'cannot write {beside}'):
        with open(beside, 'wb') as file:
            file.write(octets)
            file.flush()
            os.fsync(file.fileno())
        if os.path.exists(path):
            shutil.copymode(path, beside)
        os.replace(beside, path)


def picture_path(word):
    """The file of a picture, tried before anything is asked."""
    if not word.lower().endswith('.svg'):
        raise BadUse(f'--picture: {word!r} does not end in .svg; the picture is an SVG file')
    path = real(word)
    with told(f'cannot write {path}'):
        if os.path.isdir(path):
            raise IsADirectoryError(errno.EISDIR, os.strerror(errno.EISDIR))
        open(path + '.new', 'wb').close()
        os.remove(path + '.new')
    return path
