"""AES and ChaCha20 of Python's `cryptography`, which each call needs but `encryption`."""
from ends import missing

from .milenage import Aes

try:
    from cryptography.hazmat.primitives.ciphers import Cipher, algorithms, modes
except ImportError:
    Cipher = None


def aes(key, iv=None):
    """AES-128 of single blocks, or of chained ones after an initialisation vector."""
    if Cipher is None:
        raise missing("cryptography")
    return Cipher(algorithms.AES(key), modes.ECB() if iv is None else modes.CBC(iv))


def encrypted(key, data, iv=None):
    return aes(key, iv).encryptor().update(data)


def decrypted(key, data, iv=None):
    return aes(key, iv).decryptor().update(data)


def encryption(key):
    """A call that encrypts a block. Without `cryptography` it is that of milenage.py, which is slow."""
    return Aes(key).encrypt if Cipher is None else aes(key).encryptor().update


def chacha20(key, nonce):
    """A block of ChaCha20's stream, by the 16 bytes of its counter and nonce."""
    if Cipher is None:
        raise missing("cryptography")
    return Cipher(algorithms.ChaCha20(key, nonce), mode=None).encryptor().update(bytes(64))
