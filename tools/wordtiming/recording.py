"""Reads a WAV file of 16,000 samples a second and one channel."""
import array
import os
import stat
import struct
import sys
from collections import namedtuple

from jobfile import MAX_SAMPLES
from wordtiming import Fault

RATE = 16000
PCM, FLOAT, EXTENSIBLE = 1, 3, 0xFFFE
# The last 14 bytes of a sub-format whose first two are an ordinary format number.
SUB_FORMAT = bytes.fromhex("000000001000800000aa00389b71")
OTHER_FORMATS = {2: "ADPCM", 6: "A-law", 7: "mu-law", 0x11: "IMA ADPCM", 0x31: "GSM", 0x55: "MP3"}
UNFINISHED = 0xFFFFFFFF

Format = namedtuple("Format", "kind channels rate block bits")


def read_exactly(f, n):
    """n bytes of a file, or what is left of it."""
    parts = []
    while n > 0:
        part = f.read(n)
        if not part:
            break
        parts.append(part)
        n -= len(part)
    return b"".join(parts)


def parse_format(name, body):
    """The fields of a `fmt ` chunk; an extensible one by its sub-format."""
    if len(body) < 16:
        raise Fault(f"{name}: the WAV header is truncated: its format has {len(body)} bytes, and needs 16")
    kind, channels, rate, _, block, bits = struct.unpack_from("<HHIIHH", body)
    if kind == EXTENSIBLE:
        if len(body) < 40:
            raise Fault(f"{name}: the WAV header is truncated: its extensible format has {len(body)} bytes, and needs 40")
        if body[26:40] != SUB_FORMAT:
            raise Fault(f"{name}: the WAV has a sub-format that isn't known here. Convert it: ffmpeg -i IN.wav -c:a pcm_s16le OUT.wav")
        kind = struct.unpack_from("<H", body, 24)[0]
    return Format(kind, channels, rate, block, bits)


def check_format(name, f):
    """Says what is wrong with a format that isn't taken."""
    if (f.kind, f.bits) not in CONVERTERS:
        what = {PCM: "PCM", FLOAT: "float"}.get(f.kind) or OTHER_FORMATS.get(f.kind) or f"format {f.kind}"
        raise Fault(f"{name}: {f.bits}-bit {what} isn't taken; PCM of 8, 16, 24 or 32 bits and 32-bit float are. Convert it: ffmpeg -i IN.wav -c:a pcm_s16le OUT.wav")
    if f.channels != 1:
        raise Fault(
            f"{name}: the WAV has {f.channels} channels; it must have one, and which one to take is not guessed. "
            "Take the left one: sox IN.wav OUT.wav remix 1, or: ffmpeg -i IN.wav -af 'pan=mono|c0=c0' OUT.wav"
        )
    if f.rate != RATE:
        raise Fault(f"{name}: the WAV has {f.rate:,} samples a second; it must have 16,000. Convert it: sox IN.wav -r 16000 OUT.wav, or: ffmpeg -i IN.wav -ar 16000 OUT.wav")
    if f.block != f.bits // 8:
        raise Fault(f"{name}: the WAV header contradicts itself: {f.bits} bits a sample, and {f.block} bytes")


def check_length(name, f, size, left):
    """Says what is wrong with a data chunk of `size` bytes of which the file has `left`."""
    if size > left:
        if size == UNFINISHED:
            raise Fault(f"{name}: the WAV doesn't say how long it is, as one written to a pipe. Write it to a file: ffmpeg -i IN.wav OUT.wav")
        raise Fault(f"{name}: the WAV is truncated: its header says {size:,} bytes of samples, and the file has {left:,}")
    count, rest = divmod(size, f.block)
    if rest:
        raise Fault(f"{name}: the WAV is truncated: its {size:,} bytes of samples end inside a sample of {f.block} bytes")
    if count > MAX_SAMPLES:
        raise Fault(f"{name}: the recording is too long: {count:,} samples ({count / RATE:.1f} s); at most {MAX_SAMPLES:,} ({MAX_SAMPLES / RATE:.1f} s) are taken. Cut it into parts")


def little(values):
    """The bytes of an array of numbers, little-endian."""
    if sys.byteorder == "big":
        values.byteswap()
    return values.tobytes()


def numbers(code, data):
    """Little-endian bytes as an array."""
    values = array.array(code)
    values.frombytes(data)
    if sys.byteorder == "big":
        values.byteswap()
    return values


def from_8(data):
    return little(array.array("f", ((b - 128) / 128.0 for b in data)))


def from_16(data):
    return little(array.array("f", (v / 32768.0 for v in numbers("h", data))))


def from_32(data):
    """The nearest f32 of each v / 2^31."""
    return little(array.array("f", (v / 2147483648.0 for v in numbers("i", data))))


def from_24(data):
    """Each sample with a zero byte below, as a sample of 32 bits."""
    wide = bytearray(len(data) // 3 * 4)
    for k in range(3):
        wide[k + 1 :: 4] = data[k::3]
    return from_32(bytes(wide))


CONVERTERS = {(PCM, 8): from_8, (PCM, 16): from_16, (PCM, 24): from_24, (PCM, 32): from_32, (FLOAT, 32): bytes}


def samples_in(name, f, length):
    """The samples of an open WAV file of `length` bytes, as bytes of f32."""
    head = read_exactly(f, 12)
    if head[:4] in (b"RIFX", b"RF64", b"BW64"):
        raise Fault(f"{name}: a WAV of the kind {head[:4].decode()} isn't taken. Convert it: ffmpeg -i IN.wav -c:a pcm_s16le OUT.wav")
    if head[:4] != b"RIFF" or head[8:12] != b"WAVE":
        raise Fault(f"{name}: this is not a WAV file" + (" (it is empty)" if not head else ""))
    form = None
    while True:
        head = read_exactly(f, 8)
        if len(head) < 8:
            what = "samples" if form else "format and samples"
            raise Fault(f"{name}: the WAV is truncated: the file ends before its {what}")
        tag, size = head[:4], struct.unpack("<I", head[4:])[0]
        left = length - f.tell()
        if tag == b"data":
            if form is None:
                raise Fault(f"{name}: the WAV has its samples before their format")
            check_length(name, form, size, left)
            return CONVERTERS[form.kind, form.bits](read_exactly(f, size))
        if size > left:
            raise Fault(f"{name}: the WAV is truncated: a part of it says {size:,} bytes, and the file has {left:,}")
        if tag == b"fmt ":
            form = parse_format(name, read_exactly(f, size))
            check_format(name, form)
            f.seek(size % 2, os.SEEK_CUR)
        else:
            f.seek(size + size % 2, os.SEEK_CUR)


def read_wav(path):
    """The samples of a WAV file, as bytes of f32, little-endian."""
    try:
        with open(path, "rb") as f:
            about = os.fstat(f.fileno())
            if not stat.S_ISREG(about.st_mode):
                raise Fault(f"{path}: this is a pipe or a device; the recording must be a file")
            return samples_in(path, f, about.st_size)
    except OSError as e:
        raise Fault(f"{path}: {e.strerror or e}") from None
