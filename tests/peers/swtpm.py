"""A software TPM 1.2 by its commands: `swtpm socket` of the package swtpm, which runs libtpms.

Names and numbers of commands, structures and answers are those of the TPM main specification, version 1.2. Numbers are
sent with their highest byte first. tests/peers/tpm.py compares the counters and registers of flicker with such a TPM.
"""
import hashlib
import hmac
import os
import shutil
import socket
import struct
import subprocess
import tempfile

SUCCESS, AUTHFAIL, BADINDEX, NOSRK, RESOURCES = 0, 1, 2, 0x12, 0x15
NOTRESETABLE, NOTLOCAL, BAD_LOCALITY, BAD_COUNTER, DEFEND_LOCK_RUNNING = 0x32, 0x33, 0x3D, 0x45, 0x803
ORDINALS = {
    "OIAP": 0x0A, "OSAP": 0x0B, "TakeOwnership": 0x0D, "Extend": 0x14, "PcrRead": 0x15, "OwnerClear": 0x5B,
    "PhysicalEnable": 0x6F, "PhysicalSetDeactivated": 0x72, "CreateEndorsementKeyPair": 0x78, "ReadPubek": 0x7C,
    "Startup": 0x99, "PCR_Reset": 0xC8, "CreateCounter": 0xDC, "IncrementCounter": 0xDD, "ReadCounter": 0xDE,
    "ReleaseCounter": 0xDF, "ReleaseCounterOwner": 0xE0, "TSC_PhysicalPresence": 0x4000000A,
}
CONTROLS = {"INIT": 2, "SHUTDOWN": 3, "SET_LOCALITY": 5, "HASH_START": 6, "HASH_DATA": 7, "HASH_END": 8}
OWNER_ENTITY, OWNER_HANDLE = 2, 0x40000001
OWNER, STORAGE_ROOT = hashlib.sha1(b"owner").digest(), hashlib.sha1(b"storage root").digest()
LABEL, HEADER = b"flkr", 16
KEY_PARAMETERS = struct.pack(">IHHIIII", 1, 3, 1, 12, 2048, 2, 0)


def sha1(*texts):
    return hashlib.sha1(b"".join(texts)).digest()


def xor(a, b):
    return bytes(x ^ y for x, y in zip(a, b))


def spread(seed, length):
    """MGF1 of RFC 8017 with SHA-1."""
    return b"".join(sha1(seed, i.to_bytes(4, "big")) for i in range((length + 19) // 20))[:length]


def sealed_to(modulus, text):
    """RSAES-OAEP of RFC 8017 to a public key of 2,048 bits and the exponent 65,537, with TPM 1.2's label."""
    block = sha1(b"TCPA") + bytes(256 - 42 - len(text)) + b"\1" + text
    seed = os.urandom(20)
    masked = xor(block, spread(seed, len(block)))
    padded = b"\0" + xor(seed, spread(masked, 20)) + masked
    return pow(int.from_bytes(padded, "big"), 65537, modulus).to_bytes(256, "big")


class Refused(Exception):
    """A command's answer other than SUCCESS."""

    def __init__(self, command, number):
        super().__init__(f"TPM_{command}: {number:#x}")
        self.number = number


def received(channel, length):
    """The next bytes of a socket, as many as asked for."""
    got = b""
    while len(got) < length:
        piece = channel.recv(length - len(got))
        if not piece:
            raise EOFError("swtpm closed the connection")
        got += piece
    return got


class Tpm:
    """A TPM whose state is in a directory of its own, which begins as a copy of another one's, if one is named."""

    def __init__(self, origin=None):
        self.state = tempfile.mkdtemp(prefix="swtpm-")
        if origin:
            shutil.copytree(origin.state, self.state, dirs_exist_ok=True)
        self.commands, commands = socket.socketpair()
        self.controls, controls = socket.socketpair()
        words = ["swtpm", "socket", "--tpmstate", f"dir={self.state}", "--log", "level=0"]
        words += ["--server", f"type=tcp,fd={commands.fileno()}", "--ctrl", f"type=unixio,clientfd={controls.fileno()}"]
        self.process = subprocess.Popen(words, pass_fds=(commands.fileno(), controls.fileno()))
        commands.close()
        controls.close()
        self.power_on()

    def __enter__(self):
        return self

    def __exit__(self, *_):
        self.close()

    def close(self):
        """Ends the program, and removes the state."""
        self.control("SHUTDOWN")
        self.process.wait()
        self.commands.close()
        self.controls.close()
        shutil.rmtree(self.state)

    def control(self, name, body=b""):
        """A command to the machine around the TPM, by swtpm's control channel."""
        self.controls.sendall(struct.pack(">I", CONTROLS[name]) + body)
        answer = int.from_bytes(received(self.controls, 4), "big")
        if answer != SUCCESS:
            raise Refused(name, answer)

    def command(self, name, body=b"", tag=0xC1):
        """The answer's parameters, or `Refused`."""
        self.commands.sendall(struct.pack(">HII", tag, 10 + len(body), ORDINALS[name]) + body)
        _, length, answer = struct.unpack(">HII", received(self.commands, 10))
        rest = received(self.commands, length - 10)
        if answer != SUCCESS:
            raise Refused(name, answer)
        return rest

    def with_session(self, name, handles, body, session, even, secret):
        """A command that shows by a session, which it ends, that its caller knows a secret."""
        odd = os.urandom(20)
        shown = hmac.new(secret, sha1(struct.pack(">I", ORDINALS[name]), body) + even + odd + b"\0", "sha1").digest()
        return self.command(name, handles + body + session + odd + b"\0" + shown, 0xC2)[:-41]

    def authorized(self, name, handles, body, secret):
        """A command by TPM_OIAP. Handles are not part of what is shown, but a counter's id is: it is in the body."""
        answer = self.command("OIAP")
        return self.with_session(name, handles, body, answer[:4], answer[4:24], secret)

    def power_on(self):
        """The power comes back: TPM_Init, and TPM_Startup(ST_CLEAR)."""
        self.control("INIT", struct.pack(">I", 1))
        self.command("Startup", struct.pack(">H", 1))

    def locality(self, number):
        """The locality that the following commands come from."""
        self.control("SET_LOCALITY", bytes([number]))

    def launch(self, image):
        """What SKINIT has a processor do: TPM_HASH_START, TPM_HASH_DATA, TPM_HASH_END, of locality 4."""
        self.control("HASH_START")
        for i in range(0, len(image), 4096):
            piece = image[i : i + 4096]
            self.control("HASH_DATA", struct.pack(">I", len(piece)) + piece)
        self.control("HASH_END")

    def extend(self, register, digest):
        return self.command("Extend", struct.pack(">I", register) + digest)

    def register(self, register):
        return self.command("PcrRead", struct.pack(">I", register))

    def reset(self, register):
        """TPM_PCR_Reset of one register."""
        return self.command("PCR_Reset", b"\0\3" + (1 << register).to_bytes(3, "little"))

    def enable(self):
        """Enables the TPM, for who stands before the machine, and starts it anew."""
        for presence in (0x20, 0x08):
            self.command("TSC_PhysicalPresence", struct.pack(">H", presence))
        self.command("PhysicalEnable")
        self.command("PhysicalSetDeactivated", b"\0")
        self.power_on()

    def take_ownership(self):
        """Gives an enabled TPM an owner, whose secret is OWNER, and a key if it has none."""
        try:
            key = self.command("ReadPubek", bytes(20))
        except Refused:
            key = self.command("CreateEndorsementKeyPair", bytes(20) + KEY_PARAMETERS)
        start = len(KEY_PARAMETERS) + 4
        modulus = int.from_bytes(key[start : start + 256], "big")
        body = struct.pack(">H", 5)
        for secret in (OWNER, STORAGE_ROOT):
            body += struct.pack(">I", 256) + sealed_to(modulus, secret)
        body += struct.pack(">IHIB", 0x01010000, 0x11, 0, 1) + KEY_PARAMETERS + bytes(12)
        self.authorized("TakeOwnership", b"", body, OWNER)

    def create_counter(self, secret, owner=OWNER):
        """A new counter's handle and first value. Who knows the secret may increment it."""
        odd = os.urandom(20)
        answer = self.command("OSAP", struct.pack(">HI", OWNER_ENTITY, OWNER_HANDLE) + odd)
        session, even, even_shared = answer[:4], answer[4:24], answer[24:44]
        shared = hmac.new(owner, even_shared + odd, "sha1").digest()
        body = xor(secret, sha1(shared, even)) + LABEL
        answer = self.with_session("CreateCounter", b"", body, session, even, shared)
        return int.from_bytes(answer[:4], "big"), int.from_bytes(answer[10:14], "big")

    def increment_counter(self, handle, secret):
        answer = self.authorized("IncrementCounter", b"", struct.pack(">I", handle), secret)
        return int.from_bytes(answer[6:10], "big")

    def read_counter(self, handle):
        return int.from_bytes(self.command("ReadCounter", struct.pack(">I", handle))[6:10], "big")

    def release_counter(self, handle, secret, name="ReleaseCounter"):
        self.authorized(name, b"", struct.pack(">I", handle), secret)

    def set_counter(self, handle, value):
        """Writes a counter's value, before which stands LABEL, into the stored state: copies of this TPM have it."""
        path = os.path.join(self.state, "tpm-00.permall")
        with open(path, "rb") as file:
            text = file.read()
        if text[-20:] != sha1(text[HEADER:-20]):
            raise ValueError("the stored state has another form than in libtpms 0.9")
        parts = text[HEADER:-20].split(LABEL)
        parts[handle + 1] = struct.pack(">I", value) + parts[handle + 1][4:]
        state = LABEL.join(parts)
        with open(path, "wb") as file:
            file.write(text[:HEADER] + state + sha1(state))
