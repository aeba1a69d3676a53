"""Files that are read and written whole."""
import os


def read(path: str) -> bytes:
    with open(path, 'rb') as file:
        return file.read()


def write(path: str, content: bytes) -> str:
    """Writes a file, and its folder where there is none. Gives its path."""
    os.makedirs(os.path.dirname(path), exist_ok=True)
    with open(path, 'wb') as file:
        file.write(content)
    return path
