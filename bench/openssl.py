"""Prints the processor seconds that OpenSSL's library takes for the cipher and the HMAC of some cells.

Usage: openssl.py COUNT BYTES, where each of COUNT cells has so many bytes of ciphertext. As in `ae`, the keys are prepared once and
not for each cell. What Python itself takes for the calls is measured by the same calls over no bytes, and is taken off. What the
variable OPENSSL_ia32cap takes from the processor isn't used.
"""
import ctypes
import ctypes.util
import os
import sys
import time


class Opener:
    """The cipher and the HMAC of cells under one key."""

    def __init__(self, size):
        self.crypto = crypto = ctypes.CDLL(ctypes.util.find_library("crypto"))
        for name in ("EVP_CIPHER_CTX_new", "EVP_aes_256_cbc", "EVP_sha256", "HMAC_CTX_new"):
            getattr(crypto, name).restype = ctypes.c_void_p
        self.cipher, self.mac = ctypes.c_void_p(crypto.EVP_CIPHER_CTX_new()), ctypes.c_void_p(crypto.HMAC_CTX_new())
        key, self.iv = os.urandom(32), os.urandom(16)
        crypto.EVP_DecryptInit_ex(self.cipher, ctypes.c_void_p(crypto.EVP_aes_256_cbc()), None, key, self.iv)
        crypto.EVP_CIPHER_CTX_set_padding(self.cipher, 0)
        crypto.HMAC_Init_ex(self.mac, key, 32, ctypes.c_void_p(crypto.EVP_sha256()), None)
        # (the HMAC is of the version, the IV, the ciphertext and the version's length)
        self.sent = ctypes.create_string_buffer(os.urandom(size + 18), size + 18)
        self.plain, self.tag = ctypes.create_string_buffer(size + 32), ctypes.create_string_buffer(64)
        self.length, self.tag_length = ctypes.c_int(), ctypes.c_uint()

    def seconds(self, count, size, mac_size, last):
        """What so many cells take; `last` is the call that ends an HMAC."""
        crypto, cipher, mac, sent, iv = self.crypto, self.cipher, self.mac, self.sent, self.iv
        begin = time.process_time()
        for _ in range(count):
            crypto.HMAC_Init_ex(mac, None, 0, None, None)
            crypto.HMAC_Update(mac, sent, mac_size)
            last(mac, self.tag, ctypes.byref(self.tag_length))
            crypto.EVP_DecryptInit_ex(cipher, None, None, None, iv)
            crypto.EVP_DecryptUpdate(cipher, self.plain, ctypes.byref(self.length), sent, size)
        return time.process_time() - begin


def main():
    count, size = int(sys.argv[1]), int(sys.argv[2])
    opener = Opener(size)
    whole = opener.seconds(count, size, size + 18, opener.crypto.HMAC_Final)
    calls = opener.seconds(count, 0, 0, opener.crypto.HMAC_size)
    print(whole - calls)


main()
