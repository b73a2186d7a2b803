"""The digits of the client ids that a daemon draws with ChaCha20, as OpenSSL computes them."""
import functools
import struct
import subprocess


@functools.cache
def keystream(seed):
    """Returns the first bytes of ChaCha20 with the key `seed`, in hexadecimal digits, for a nonce and a counter of 0."""
    args = ["openssl", "enc", "-chacha20", "-K", seed, "-iv", "0" * 32]
    return subprocess.run(args, input=bytes(4096), stdout=subprocess.PIPE, check=True).stdout


def drawn(seed, place):
    """Returns nonce `place`, from 0, of the daemon with this seed: two numbers of 64 bits, whose lowest byte comes first."""
    low, high = struct.unpack_from("<2Q", keystream(seed), 16 * place)
    return f"{low:016x}{high:016x}"
