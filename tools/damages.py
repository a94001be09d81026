"""Damages of a package's files, byte by byte: for bench/damage, and for the cases of tools/conformance."""
import os


def damages(folder, names=None):
    """Each damage of a file of a folder, or of these files: the file, its offset, the byte that comes there or None where the
    file ends, and the bytes that come of it. Debug.cap is left out, which nothing loads."""
    for name in sorted(os.listdir(folder)) if names is None else names:
        if name == "Debug.cap":
            continue
        with open(os.path.join(folder, name), "rb") as file:
            whole = file.read()
        for at, byte in enumerate(whole):
            for value in sorted({0, 255, (byte + 1) % 256} - {byte}):
                yield name, at, value, whole[:at] + bytes([value]) + whole[at + 1:]
            yield name, at, None, whole[:at]
