"""A column's cells, sealed and opened by the library `cryptography`."""
import hashlib
import hmac

from cryptography.hazmat.primitives.ciphers import Cipher, algorithms, modes
from cryptography.hazmat.primitives.keywrap import aes_key_unwrap

WRAPPED = "220c697988644e355dd40228bdd25f9b9d4c66402a54b592cd1a9f896ebe365b7de76170401d9ef2"
LABEL = "Microsoft SQL Server cell %s key with encryption algorithm:AEAD_AES_256_CBC_HMAC_SHA256 and key length:256"


def mac(key, data):
    return hmac.new(key, data, hashlib.sha256).digest()


class Column:
    """A column's keys, and its cells."""

    def __init__(self, key):
        self.enc, self.mac, self.iv = (mac(key, (LABEL % it).encode("utf-16-le")) for it in ("encryption", "MAC", "IV"))

    def seal(self, data, iv=None):
        iv = iv or mac(self.iv, data)[:16]
        pad = 16 - len(data) % 16
        cipher = Cipher(algorithms.AES(self.enc), modes.CBC(iv)).encryptor()
        body = cipher.update(data + bytes([pad]) * pad) + cipher.finalize()
        return b"\x01" + mac(self.mac, b"\x01" + iv + body + b"\x01") + iv + body

    def open(self, cell):
        tag, iv, body = cell[1:33], cell[33:49], cell[49:]
        if cell[0] != 1 or not hmac.compare_digest(tag, mac(self.mac, b"\x01" + iv + body + b"\x01")):
            raise ValueError("a cell that this key didn't seal")
        cipher = Cipher(algorithms.AES(self.enc), modes.CBC(iv)).decryptor()
        data = cipher.update(body) + cipher.finalize()
        return data[: -data[-1]]


def column_of(path):
    """A column under the first column key of the example payroll, whose master key is in a file."""
    with open(path, encoding="ascii") as it:
        return Column(aes_key_unwrap(bytes.fromhex(it.read()), bytes.fromhex(WRAPPED)))
