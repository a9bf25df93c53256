#!/usr/bin/env python3
"""Tests of the client against bytes that no program of this repository made: `python3 test_pomtsjef.py`."""
import hashlib
import unittest

from pomtsjef import BadFile, Client, Item, Reply, place_behind, read_keys, read_list, read_reply, spell_transaction, tag

KEY = "1" * 64
KEY_FILE = f"# of client 7\nc7 v1 {'aB' * 32}\n\nc7 v0 {KEY}".encode()


def hmac_by_its_definition(key, text):
    """HMAC of RFC 2104 over SHA-256, of a key of at most 64 bytes."""
    inner, outer = (bytes(it ^ pad for it in key.ljust(64, b"\0")) for pad in (0x36, 0x5C))
    return hashlib.sha256(outer + hashlib.sha256(inner + text).digest()).digest()


class Spelling(unittest.TestCase):
    def test_the_examples_of_the_formats(self):
        for given, wanted in (
            ((7, 0, 1, b"a"), "01 0007 0000000000000001 00 0001 61"),
            ((7, 0, 2, None), "01 0007 0000000000000002 01"),
            ((7, 1, 1, b"b"), "02 0007 00000001 0000000000000001 00 0001 62"),
        ):
            self.assertEqual(spell_transaction(*given), bytes.fromhex(wanted))

    def test_the_limits(self):
        self.assertEqual(len(spell_transaction(1_023, 0, 1 << 48, bytes(1_024))), 1_038)
        self.assertEqual(len(spell_transaction(1_023, (1 << 32) - 1, 1 << 48, bytes(1_024))), 1_042)
        above = ((1_024, 0, 1, b""), (7, 1 << 32, 1, b""), (7, 0, (1 << 48) + 1, b""), (7, 0, 1, bytes(1_025)))
        for given in (*above, (7, 0, 0, b"")):
            self.assertRaises(ValueError, spell_transaction, *given)

    def test_the_vectors_of_rfc_4231(self):
        for key, text, wanted in (
            (b"\x0b" * 20, b"Hi There", "b0344c61d8db38535ca8afceaf0bf12b881dc200c9833da726e9376c2e32cff7"),
            (b"Jefe", b"what do ya want for nothing?", "5bdcc146bf60754e6a042426089575c75a003f089d2739839dec58b964ec3843"),
        ):
            self.assertEqual(tag(key, text).hex(), wanted)

    def test_a_frame(self):
        body = bytes.fromhex("01 0007 0000000000000001 00 0001 61")
        tags = [hmac_by_its_definition(it, body) for it in (b"\x11" * 32, b"\xab" * 32)]
        # (15 bytes, the count of the tags, and two tags)
        self.assertEqual(Client(KEY_FILE, 7, 2).frame(0, 1, b"a"), bytes.fromhex("00000050") + body + b"\x02" + b"".join(tags))


class Reading(unittest.TestCase):
    def test_key_files(self):
        self.assertEqual(read_keys(KEY_FILE, 7, 2), [b"\x11" * 32, b"\xab" * 32])
        for text, wanted in (
            (f"c7 v0 {KEY}\nc7 v2 {KEY}\n", "keys 1"),
            (f"c7 v0 {KEY}\nc8 v1 {KEY}\n", "keys 1"),
            (f"c7  v0 {KEY}\n", "keys 1"),
            (f"c7 v0 {KEY}\r\n", "keys 1"),
            (f"c7 v0 {KEY}1\n", "keys 1"),
            (f"c7 v0 {KEY}\n", "keys 2"),
            (f"c7 v0 {KEY}\nc7 v0 {KEY}\n", "keys 3"),
        ):
            self.assertRaisesRegex(BadFile, wanted, read_keys, text.encode(), 7, 2)

    def test_replies(self):
        for given, wanted in (
            ("200000", "accepted"),
            ("200d04", "refused 13 4 (Gap)"),
            ("200d09", "refused 13 9 (SessionAhead)"),
            ("200f00", "refused 15 0 (Halted)"),
            ("201100", "refused 17 0 (JournalFailed)"),
        ):
            self.assertEqual(str(read_reply(bytes.fromhex(given))), wanted)
        self.assertEqual(read_reply(b"\x20\x0d\x04"), Reply(13, 4))
        for given in ("", "2000", "20000000", "210000", "200001", "200d00", "200d0a", "201000ff", "201200"):
            self.assertRaises(ValueError, read_reply, bytes.fromhex(given))

    def test_lists(self):
        lines = ["0 7 1 61\n", "1 9 1 -\n", "2 7 2 close\n", "3 7.1 1 00ff\n"]
        items = [Item(0, 7, 0, 1, b"a"), Item(1, 9, 0, 1, b""), Item(2, 7, 0, 2, None), Item(3, 7, 1, 1, b"\x00\xff")]
        self.assertEqual(list(read_list(lines)), items)
        self.assertEqual(list(read_list([*lines[:3], *lines, "4 7.1"])), items)
        self.assertEqual([place_behind(items[:it], 7) for it in range(5)], [(0, 1), (0, 2), (0, 2), (1, 1), (1, 2)])
        self.assertEqual(place_behind(items, 8), (0, 1))
        for bad in ("5 7.1 2 61", "4 7.0 2 61", "4 7.1 2 ", "4 7.1 2 6", "4 7.1 2 6A", "04 7.1 2 61", "4 7.1 2 61 ", "4 7.1 0 61", ""):
            self.assertRaises(BadFile, list, read_list([*lines, bad + "\n"]))
        for bad in (Item(4, 7, 1, 1, b""), Item(4, 7, 1, 3, b""), Item(4, 7, 2, 1, b""), Item(4, 7, 0, 3, b"")):
            self.assertRaises(BadFile, place_behind, [*items, bad], 7)


if __name__ == "__main__":
    unittest.main()
