#!/usr/bin/env python3
"""Makes crates/aes_vectors/stdout: what the program aes_vectors must print.

No value is computed by this project's code. Each line is made twice: by the functions below, which were written from FIPS 197 and RFC 4493 (the
inverse by search, a round by a table of columns), and by the Python package cryptography (OpenSSL's code). The script stops if they differ. Where
the package is not there it says so, and the functions below stand alone. (The package hands no subkeys out: K1 and K2 are its L, doubled below.)
PUBLISHED, GFSBOX and KEYSBOX have what the documents print, and the script stops if anything else comes out. The lines:

  appendix B, C.1   the examples of FIPS 197 (in C.1, the one with 128 bits).
  GFSbox, KeySbox   known answers of NIST's AESAVS for 128 bits, appendices B.1 and C.1: a block under the zero key, and the zero block under a key;
                    the line has this block or key first.
  VarTxt, VarKey    AESAVS, appendices D and E: line i has the first i + 1 bits of the block, or of the key, set.
  chain             the Monte Carlo test of AESAVS (6.4, ECB) from the start of NIST's file ECBMCT128.rsp: 100 times 1000 encryptions.
  L, K1, K2         the subkeys that RFC 4493 prints.
  example N         the codes of RFC 4493, 4: the first N bytes of its message.
  prefix N          the code of the first N bytes of a message by a rule: byte i is 7 i + 3, modulo 256. N is 0 to 80, under RFC 4493's key.

With --check it compares instead of writing.
"""
import functools
import sys
from pathlib import Path

try:
    from cryptography.hazmat.primitives.ciphers import Cipher, algorithms, modes
    from cryptography.hazmat.primitives.cmac import CMAC
except ImportError:
    Cipher = None

TARGET = Path(__file__).resolve().parent.parent / 'crates/aes_vectors/stdout'

PUBLISHED = {
    'appendix B': '3925841d02dc09fbdc118597196a0b32',
    'appendix C.1': '69c4e0d86a7b0430d8cdb78070b4c55a',
    'VarTxt 0': '3ad78e726c1ec02b7ebfe92b23d9ec34',
    'VarTxt 127': '3f5b8cc9ea855a0afa7347d23e8d664e',
    'VarKey 0': '0edd33d3c621e546455bd8ba1418bec8',
    'VarKey 127': 'a1f6258c877d5fcd8964484538bfc92c',
    'chain 0': 'd7c3ffac9031238650901e157364c386',
    'L': '7df76b0c1ab899b33e42f047b91b546f',
    'K1': 'fbeed618357133667c85e08f7236a8de',
    'K2': 'f7ddac306ae266ccf90bc11ee46d513b',
    'example 0': 'bb1d6929e95937287fa37d129b756746',
    'example 16': '070a16b46b4d4144f79bdd9dd04a287c',
    'example 40': 'dfa66747de9ae63030ca32611497c827',
    'example 64': '51f0bebf7e3b9d92fc49741779363cfe',
}

ZERO = bytes(16)
KEY = bytes.fromhex('2b7e151628aed2a6abf7158809cf4f3c')
GFSBOX = {
    'f34481ec3cc627bacd5dc3fb08f273e6': '0336763e966d92595a567cc9ce537f5e',
    '9798c4640bad75c7c3227db910174e72': 'a9a1631bf4996954ebc093957b234589',
    '96ab5c2ff612d9dfaae8c31f30c42168': 'ff4f8391a6a40ca5b25d23bedd44a597',
    '6a118a874519e64e9963798a503f1d35': 'dc43be40be0e53712f7e2bf5ca707209',
    'cb9fceec81286ca3e989bd979b0cb284': '92beedab1895a94faa69b632e5cc47ce',
    'b26aeb1874e47ca8358ff22378f09144': '459264f4798f6a78bacb89c15ed3d601',
    '58c8e00b2631686d54eab84b91f0aca1': '08a4e2efec8a8e3312ca7460b9040bbf',
}
KEYSBOX = {
    '10a58869d74be5a374cf867cfb473859': '6d251e6944b051e04eaa6fb4dbf78465',
    'caea65cdbb75e9169ecd22ebe6e54675': '6e29201190152df4ee058139def610bb',
    'a2e2fa9baf7d20822ca9f0542f764a41': 'c3b44b95d9d2f25670eee9a0de099fa3',
    'b6364ac4e1de1e285eaf144a2415f7a0': '5d9b05578fc944b3cf1ccf0e746cd581',
    '64cf9c7abc50b888af65f49d521944b2': 'f7efc89d5dba578104016ce5ad659c05',
    '47d6742eefcc0465dc96355e851b64d9': '0306194f666d183624aa230a8b264ae7',
    '3eb39790678c56bee34bbcdeccf6cdb5': '858075d536d79ccee571f7d7204b1f67',
    '64110a924f0743d500ccadae72c13427': '35870c6a57e9e92314bcb8087cde72ce',
    '18d8126516f8a12ab1a36d9f04d68e51': '6c68e9be5ec41e22c825b7c7affb4363',
    'f530357968578480b398a3c251cd1093': 'f5df39990fc688f1b07224cc03e86cea',
    'da84367f325d42d601b4326964802e8e': 'bba071bcb470f8f6586e5d3add18bc66',
    'e37b1c6aa2846f6fdb413f238b089f23': '43c9f7e62f5d288bb27aa40ef8fe1ea8',
    '6c002b682483e0cabcc731c253be5674': '3580d19cff44f1014a7c966a69059de5',
    '143ae8ed6555aba96110ab58893a8ae1': '806da864dd29d48deafbe764f8202aef',
    'b69418a85332240dc82492353956ae0c': 'a303d940ded8f0baff6f75414cac5243',
    '71b5c08a1993e1362e4d0ce9b22b78d5': 'c2dabd117f8a3ecabfbb11d12194d9d0',
    'e234cdca2606b81f29408d5f6da21206': 'fff60a4740086b3b9c56195b98d91a7b',
    '13237c49074a3da078dc1d828bb78c6f': '8146a08e2357f0caa30ca8c94d1a0544',
    '3071a2a48fe6cbd04f1a129098e308f8': '4b98e06d356deb07ebb824e5713f7be3',
    '90f42ec0f68385f2ffc5dfc03a654dce': '7a20a53d460fc9ce0423a7a0764c6cf2',
    'febd9a24d8b65c1c787d50a4ed3619a9': 'f4a70d8af877f9b02b4c40df57d45b17',
}
CHAIN_KEY = bytes.fromhex('139a35422f1d61de3c91787fe0507afd')
CHAIN_BLOCK = bytes.fromhex('b9145a768b7dc489a096b546f43b231f')
MESSAGE = bytes.fromhex(
    '6bc1bee22e409f96e93d7e117393172aae2d8a571e03ac9c9eb76fac45af8e51'
    '30c81c46a35ce411e5fbc1191a0a52eff69f2445df4f9b17ad2b417be66c3710'
)
RULED = bytes((7 * i + 3) % 256 for i in range(80))


# ---- AES-128 and AES-CMAC, from the documents

def product(a, b):
    """The product of two bytes in GF(2^8)."""
    result = 0
    while a:
        if a & 1:
            result ^= b
        a, b = a >> 1, (b << 1) ^ (0x11B if b & 0x80 else 0)
    return result


def substitution(byte):
    inverse = next((b for b in range(256) if product(byte, b) == 1), 0)
    turned = [(inverse << n | inverse >> (8 - n)) & 0xFF for n in range(5)]
    return functools.reduce(lambda a, b: a ^ b, turned, 0x63)


SBOX = [substitution(byte) for byte in range(256)]
# What a substituted byte in row r adds to its column when columns are mixed; a column is a number of 32 bits, row 0 first.
MIXED = [[0] * 256 for _ in range(4)]
for byte in range(256):
    column = bytes(product(factor, SBOX[byte]) for factor in (2, 1, 1, 3))
    for r in range(4):
        MIXED[r][byte] = int.from_bytes(column[4 - r:] + column[:4 - r], 'big')


def substituted(word):
    return SBOX[word >> 24] << 24 | SBOX[word >> 16 & 0xFF] << 16 | SBOX[word >> 8 & 0xFF] << 8 | SBOX[word & 0xFF]


@functools.lru_cache
def schedule(key):
    w = [int.from_bytes(key[i:i + 4], 'big') for i in range(0, 16, 4)]
    constant = 1
    for i in range(4, 44):
        temp = w[i - 1]
        if i % 4 == 0:
            temp = substituted((temp << 8 | temp >> 24) & 0xFFFFFFFF) ^ constant << 24
            constant = product(2, constant)
        w.append(w[i - 4] ^ temp)
    return w


def encrypt(key, block):
    w = schedule(key)
    s = [int.from_bytes(block[4 * c:4 * c + 4], 'big') ^ w[c] for c in range(4)]
    m0, m1, m2, m3 = MIXED
    for at in range(4, 40, 4):
        s = [
            m0[s[c] >> 24] ^ m1[s[c - 3] >> 16 & 0xFF] ^ m2[s[c - 2] >> 8 & 0xFF] ^ m3[s[c - 1] & 0xFF] ^ w[at + c]
            for c in range(4)
        ]
    shifted = [s[c] & 0xFF000000 | s[c - 3] & 0xFF0000 | s[c - 2] & 0xFF00 | s[c - 1] & 0xFF for c in range(4)]
    return b''.join((substituted(shifted[c]) ^ w[40 + c]).to_bytes(4, 'big') for c in range(4))


def xor(a, b):
    return bytes(x ^ y for x, y in zip(a, b))


def doubled(block):
    """The next subkey: the block times x in GF(2^128)."""
    number = int.from_bytes(block, 'big') << 1
    return (number ^ (1 << 128 | 0x87) if number >> 128 else number).to_bytes(16, 'big')


def code(key, message):
    k1 = doubled(encrypt(key, ZERO))
    whole = len(message) > 0 and len(message) % 16 == 0
    padded = message if whole else message + b'\x80' + bytes(15 - len(message) % 16)
    blocks = [padded[i:i + 16] for i in range(0, len(padded), 16)]
    blocks[-1] = xor(blocks[-1], k1 if whole else doubled(k1))
    x = ZERO
    for block in blocks:
        x = encrypt(key, xor(x, block))
    return x


# ---- the same by the package

@functools.lru_cache
def encryptor(key):
    return Cipher(algorithms.AES(key), modes.ECB()).encryptor()


def encrypt_by_package(key, block):
    return encryptor(key).update(block)


def code_by_package(key, message):
    c = CMAC(algorithms.AES(key))
    c.update(message)
    return c.finalize()


# ---- the lines

def values(encrypt, code):
    yield 'appendix B', encrypt(KEY, bytes.fromhex('3243f6a8885a308d313198a2e0370734'))
    yield 'appendix C.1', encrypt(bytes(range(16)), bytes(0x11 * i for i in range(16)))
    for block in GFSBOX:
        yield f'GFSbox {block}', encrypt(ZERO, bytes.fromhex(block))
    for key in KEYSBOX:
        yield f'KeySbox {key}', encrypt(bytes.fromhex(key), ZERO)
    for i in range(128):
        ones = (2 ** 128 - 2 ** (127 - i)).to_bytes(16, 'big')
        yield f'VarTxt {i}', encrypt(ZERO, ones)
        yield f'VarKey {i}', encrypt(ones, ZERO)
    key, block = CHAIN_KEY, CHAIN_BLOCK
    for i in range(100):
        for _ in range(1000):
            block = encrypt(key, block)
        yield f'chain {i}', block
        key = xor(key, block)
    yield 'L', encrypt(KEY, ZERO)
    yield 'K1', doubled(encrypt(KEY, ZERO))
    yield 'K2', doubled(doubled(encrypt(KEY, ZERO)))
    for n in (0, 16, 40, 64):
        yield f'example {n}', code(KEY, MESSAGE[:n])
    for n in range(81):
        yield f'prefix {n}', code(KEY, RULED[:n])


def lines(encrypt, code):
    made = [(name, value.hex()) for name, value in values(encrypt, code)]
    published = {
        **PUBLISHED,
        **{f'GFSbox {block}': value for block, value in GFSBOX.items()},
        **{f'KeySbox {key}': value for key, value in KEYSBOX.items()},
    }
    for name, value in published.items():
        if dict(made)[name] != value:
            sys.exit(f'{name}: {dict(made)[name]} was made, and {value} was published')
    return ''.join(f'{name} {value}\n' for name, value in made)


def main():
    text = lines(encrypt, code)
    if Cipher is None:
        print('aes_vectors: NOT COMPARED with the Python package cryptography, which is not there')
    elif lines(encrypt_by_package, code_by_package) != text:
        sys.exit('the package cryptography makes other values than this script')
    if sys.argv[1:] == ['--check']:
        if TARGET.read_text() != text:
            sys.exit(f'{TARGET} is not what this script makes')
    else:
        TARGET.write_text(text)


main()
