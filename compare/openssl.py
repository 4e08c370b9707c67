"""The second judge: OCB over AES-128, AES-192 and AES-256 of OpenSSL's libcrypto. It knows nonces of 1 to 15 bytes and tags of 1 to 16, and no table of
size m."""

import ctypes
import ctypes.util

from paper import KEY_LENGTHS
from script import Trouble

SET_NONCE_LENGTH, GET_TAG, SET_TAG = 0x9, 0x10, 0x11  # the control numbers EVP_CTRL_AEAD_SET_IVLEN, _GET_TAG and _SET_TAG


class OpenSSL:
    def __init__(self):
        name = ctypes.util.find_library("crypto")
        if name is None:
            raise Trouble("OpenSSL's libcrypto is missing (Debian's package libssl3)")
        try:
            library = ctypes.CDLL(name)
            library.EVP_CIPHER_fetch.restype = ctypes.c_void_p
        except (OSError, AttributeError):
            raise Trouble(f"{name} is not OpenSSL 3 (Debian's package libssl3)") from None
        library.EVP_CIPHER_CTX_new.restype = ctypes.c_void_p
        library.OpenSSL_version.restype = ctypes.c_char_p
        pointer, number, string, out = ctypes.c_void_p, ctypes.c_int, ctypes.c_char_p, ctypes.POINTER(ctypes.c_int)
        library.EVP_CIPHER_CTX_free.argtypes = [pointer]
        library.EVP_CIPHER_CTX_ctrl.argtypes = [pointer, number, number, string]
        library.EVP_CipherInit_ex.argtypes = [pointer, pointer, pointer, string, string, number]
        library.EVP_CipherUpdate.argtypes = [pointer, string, out, string, number]
        library.EVP_CipherFinal_ex.argtypes = [pointer, pointer, out]
        self.library = library
        self.ciphers = {length: library.EVP_CIPHER_fetch(None, b"AES-%d-OCB" % (8 * length), None) for length in KEY_LENGTHS}
        if not all(self.ciphers.values()):
            raise Trouble(f"{name} was built without OCB over AES")
        self.name = " ".join(library.OpenSSL_version(0).decode().split()[:2])

    def seal(self, key, nonce, data, text, tag_length):
        """The ciphertext and the tag."""
        _, out, tag = self._run(False, key, nonce, data, text, bytes(tag_length))
        return out, tag

    def open(self, key, nonce, data, text, tag):
        """Whether the tag is accepted, and what the text deciphers to, also where it is not."""
        accepted, out, _ = self._run(True, key, nonce, data, text, tag)
        return accepted, out

    def _run(self, is_open, key, nonce, data, text, tag):
        library = self.library
        context = library.EVP_CIPHER_CTX_new()
        length = ctypes.c_int(0)

        def must(status):
            if status != 1:
                raise Trouble(f"OpenSSL refuses a nonce of {len(nonce)} with a tag of {len(tag)} bytes")

        try:
            must(library.EVP_CipherInit_ex(context, self.ciphers[len(key)], None, None, None, not is_open))
            must(library.EVP_CIPHER_CTX_ctrl(context, SET_NONCE_LENGTH, len(nonce), None))
            must(library.EVP_CIPHER_CTX_ctrl(context, SET_TAG, len(tag), None))
            if is_open:
                must(library.EVP_CIPHER_CTX_ctrl(context, SET_TAG, len(tag), tag))
            must(library.EVP_CipherInit_ex(context, None, None, key, nonce, not is_open))
            if data:
                must(library.EVP_CipherUpdate(context, None, ctypes.byref(length), data, len(data)))
            out, used = ctypes.create_string_buffer(len(text) + 32), 0
            if text:
                must(library.EVP_CipherUpdate(context, out, ctypes.byref(length), text, len(text)))
                used = length.value
            accepted = library.EVP_CipherFinal_ex(context, ctypes.byref(out, used), ctypes.byref(length)) == 1
            if not is_open:
                must(accepted)
                place = ctypes.create_string_buffer(len(tag))
                must(library.EVP_CIPHER_CTX_ctrl(context, GET_TAG, len(tag), place))
                tag = place.raw
            return accepted, out.raw[: len(text)], tag
        finally:
            library.EVP_CIPHER_CTX_free(context)
