"""Vectors of datagrams and streams under a key, for `docs/vectors/sealed.json` and `tagged.json`."""

from __future__ import annotations

from . import codec
from .codec import LINE, AskPages, Drawop, Page, Shape
from .envelope import QUESTION, SEALED, TAGGED, TAGS, Seal, asks, own_key, piece

KEY, SESSION = "AAECAwQFBgcICQoLDA0ODxAREhMUFRYXGBkaGxwdHh8", "class-7"
SENDER = bytes.fromhex("0123456789abcdef")
NONCES = [bytes([n]) * 12 for n in (1, 2, *range(4, 9))]
GIVEN, OURS = bytes(range(0x10, 0x20)), bytes(range(0x80, 0x90))
DRAWOPS = [codec.write(Drawop(7, Page(7, 1), seq, seq, Shape(LINE, 0, seq, 4, seq, ord("*")))) for seq in (1, 2)]
POINTER = bytes.fromhex("57500100000000090000000700000001000c0003")


CARRIED = [("a question for pages", codec.write(AskPages(9))), ("a drawop", DRAWOPS[0]), ("a pointer", POINTER)]


def sealed_datagrams() -> list[dict[str, object]]:
    seal = Seal(KEY, SESSION, SENDER)
    return [{"what": name, "counter": n, "nonce": nonce.hex(), "datagram": data.hex(), "sealed": seal.wrap(data, nonce).hex()} for n, ((name, data), nonce) in enumerate(zip(CARRIED, NONCES), 1)]


def not_opened() -> list[dict[str, str]]:
    """Whole bytes that are none of the session's."""
    seal, inner = Seal(KEY, SESSION, SENDER), SENDER + bytes(7) + b"\x05" + DRAWOPS[0]
    bad = bytearray(seal.close(SEALED + inner, b"", NONCES[3]))
    bad[-1] ^= 1
    return [
        {"why": "a bit of the tag is another", "sealed": bad.hex()},
        {"why": "another version", "sealed": seal.close(b"\x01" + inner, b"", NONCES[4]).hex()},
        {"why": "sealed, and it says that it is tagged", "sealed": seal.close(TAGGED + inner, b"", NONCES[4]).hex()},
        {"why": "another session", "sealed": Seal(KEY, "class-8", SENDER).wrap(DRAWOPS[0], NONCES[5]).hex()},
        {"why": "a piece of a stream", "sealed": seal.close(SEALED + inner, GIVEN, NONCES[6]).hex()},
    ]


def stream() -> dict[str, str]:
    seal = Seal(KEY, SESSION, SENDER)
    return {
        "F": GIVEN.hex(), "G": OURS.hex(),
        "nonce of the asker": NONCES[0].hex(), "the asker's piece": asks(seal, GIVEN, OURS, NONCES[0]).hex(),
        "nonce of the giver": NONCES[1].hex(), "the giver's piece": piece(seal.close(b"".join(DRAWOPS), GIVEN + OURS, NONCES[1])).hex(),
    }


def all_vectors() -> dict[str, object]:
    return {
        "what": "Datagrams sealed under a key for a session by one sender, what is to be dropped, and a stream of two drawops with and without a key (docs/PROTOCOL.md)",
        "key": KEY, "session": SESSION, "sender": SENDER.hex(),
        "datagrams": sealed_datagrams(),
        "dropped": not_opened(),
        "stream without a key": {"question": QUESTION.hex(), "answer": b"".join(DRAWOPS).hex()},
        "stream with the key": stream(),
    }


# ---- under a key that tags


def not_tagged() -> list[dict[str, str]]:
    seal, inner = Seal(TAGS + KEY, SESSION, SENDER), SENDER + bytes(7) + b"\x05" + DRAWOPS[0]
    bad = bytearray(seal.close(TAGGED + inner))
    bad[-1] ^= 1
    return [
        {"why": "a bit of the tag is another", "tagged": bad.hex()},
        {"why": "tagged, and it says that it is sealed", "tagged": seal.close(SEALED + inner).hex()},
        {"why": "another session", "tagged": Seal(TAGS + KEY, "class-8", SENDER).wrap(DRAWOPS[0]).hex()},
        {"why": "a piece of a stream", "tagged": seal.close(TAGGED + inner, GIVEN).hex()},
    ]


def tagged_vectors() -> dict[str, object]:
    seal = Seal(TAGS + KEY, SESSION, SENDER)
    return {
        "what": "Datagrams tagged under a key for a session by one sender, what is to be dropped, a stream of two drawops, and the keys of a user's sessions (docs/PROTOCOL.md)",
        "key": TAGS + KEY, "session": SESSION, "sender": SENDER.hex(),
        "datagrams": [{"what": name, "counter": n, "datagram": data.hex(), "tagged": seal.wrap(data).hex()} for n, (name, data) in enumerate(CARRIED, 1)],
        "dropped": not_tagged(),
        "stream with the key": {
            "F": GIVEN.hex(), "G": OURS.hex(), "the asker's piece": asks(seal, GIVEN, OURS).hex(),
            "the giver's piece": piece(seal.close(b"".join(DRAWOPS), GIVEN + OURS)).hex(),
        },
        "keys of sessions": [{"ports from": first, "key": own_key(TAGS + KEY, first)} for first in (24_200, 25_000)],
    }
