#!/usr/bin/env python3
"""Makes crates/sha256_vectors/stdout: what the program sha256_vectors must print.

Every digest is computed by Python's hashlib (OpenSSL's code), never by this project's. The messages:

  short N      the messages of 0 to 13 bytes of SHA256ShortMsg.rsp, of NIST's SHA test vectors for byte-oriented messages. PUBLISHED below has
               the digests of that file, and the script stops if hashlib gives another.
  prefix N     the first N bytes of a message by a rule: byte i is (7 i + i / 256) modulo 256. N is 0 to 130, which has every border of the
               padding of one and of two blocks, and some longer ones.
  pieces of N  the first 1000 bytes of the same message. The program feeds them in pieces of N bytes; the digest is that of the whole.
  million      a million times 'a': the third example that NIST published with the standard, with its digest.
  chain N      the Monte Carlo test of SHA256Monte.rsp (NIST's SHA Validation System, 6.4), from the seed of that file: 100 times 1000 digests,
               each of the last three. The file's first result is checked.

With --check it compares instead of writing. Some digests are compared with sha256sum's and openssl's too; where one of them is not there it says so.
"""
import hashlib
import shutil
import subprocess
import sys
from pathlib import Path

TARGET = Path(__file__).resolve().parent.parent / 'crates/sha256_vectors/stdout'

PUBLISHED = {
    '': 'e3b0c44298fc1c149afbf4c8996fb92427ae41e4649b934ca495991b7852b855',
    'd3': '28969cdfa74a12c82f3bad960b0b000aca2ac329deea5c2328ebc6f2ba9802c1',
    '11af': '5ca7133fa735326081558ac312c620eeca9970d1e70a4b95533d956f072d1f98',
    'b4190e': 'dff2e73091f6c05e528896c4c831b9448653dc2ff043528f6769437bc7b975c2',
    '74ba2521': 'b16aa56be3880d18cd41e68384cf1ec8c17680c45a02b1575dc1518923ae8b0e',
    'c299209682': 'f0887fe961c9cd3beab957e8222494abb969b1ce4c6557976df8b0f6d20e9166',
    'e1dc724d5621': 'eca0a060b489636225b4fa64d267dabbe44273067ac679f20820bddc6b6a90ac',
    '06e076f5a442d5': '3fd877e27450e6bbd5d74bb82f9870c64c66e109418baa8e6bbcff355e287926',
    '5738c929c4f4ccb6': '963bb88f27f512777aab6c8b1a02c70ec0ad651d428f870036e1917120fb48bf',
    '3334c58075d3f4139e': '078da3d77ed43bd3037a433fd0341855023793f9afd08b4b08ea1e5597ceef20',
    '74cb9381d89f5aa73368': '73d6fad1caaa75b43b21733561fd3958bdc555194a037c2addec19dc2d7a52bd',
    '76ed24a0f40a41221ebfcf': '044cef802901932e46dc46b2545e6c99c0fc323a0ed99b081bda4216857f38ac',
    '9baf69cba317f422fe26a9a0': 'fe56287cd657e4afc50dba7a3a54c2a6324b886becdcd1fae473b769e551a09b',
    '68511cdb2dbbf3530d7fb61cbc': 'af53430466715e99a602fc9f5945719b04dd24267e6a98471f7a7869bd3b4313',
}
MILLION = 'cdc76e5c9914fb9281a1c7e284d73e67f1809a48a497200e046d39ccc7112cd0'
SEED = bytes.fromhex('f41ece2613e4573915696b5adcd51ca328be3bf566a9ca99c9ceb0279c1cb0a7')
FIRST_CHAIN = '83d28614d49c3adc1d6fc05db5f48037c056f8d2a4ce44ec6457dea5dd797cd1'

RULED = bytes((7 * i + i // 256) % 256 for i in range(6400))
LONG = [163, 1000, 4095, 4096, 4097, 6400]


def digest(message):
    return hashlib.sha256(message).hexdigest()


def expect(found, published, what):
    if found != published:
        sys.exit(f'{what}: hashlib gives {found}, and {published} was published')


def chain(seed):
    a = b = c = seed
    for _ in range(1000):
        a, b, c = b, c, hashlib.sha256(a + b + c).digest()
    return c


def lines():
    for message, published in PUBLISHED.items():
        message = bytes.fromhex(message)
        expect(digest(message), published, f'short {len(message)}')
        yield f'short {len(message)} {published}'
    for n in [*range(131), *LONG]:
        yield f'prefix {n} {digest(RULED[:n])}'
    for size in range(1, 131):
        yield f'pieces of {size} {digest(RULED[:1000])}'
    expect(digest(b'a' * 1000000), MILLION, 'million')
    yield f'million {MILLION}'
    seed = SEED
    for i in range(100):
        seed = chain(seed)
        if i == 0:
            expect(seed.hex(), FIRST_CHAIN, 'chain 0')
        yield f'chain {i} {seed.hex()}'


def cross_check():
    """Some digests once more, by other programs."""
    for command in (['sha256sum'], ['openssl', 'dgst', '-sha256', '-r']):
        if shutil.which(command[0]):
            compare_with(command)
        else:
            print(f'sha256_vectors: NOT COMPARED with {command[0]}, which is not there')


def compare_with(command):
    for message in (b'', RULED[:55], RULED[:56], RULED[:64], RULED[:119], RULED[:120], RULED, b'a' * 1000000):
        said = subprocess.run(command, input=message, capture_output=True, check=True).stdout.decode().split()[0]
        expect(digest(message), said, f'{len(message)} bytes by {command[0]}')


def main():
    cross_check()
    text = ''.join(line + '\n' for line in lines())
    if sys.argv[1:] == ['--check']:
        if TARGET.read_text() != text:
            sys.exit(f'{TARGET} is not what this script makes')
    else:
        TARGET.write_text(text)


main()
