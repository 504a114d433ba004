#!/usr/bin/env python3
"""Tests of tools/eap by values from outside: the test sets of the standards, the rows of crates/auc_ends_cli,
and the examples.

The rows and the examples are printed by the proved program, so they tell whether two implementations that
share nothing agree.
"""
import sys
import unittest
from pathlib import Path
from types import SimpleNamespace

from eap import ciphers, keys
from eap.attributes import Fault, places_in, read, values_in
from eap.milenage import Aes, Functions, opc_of
from eap.usim import Usim, sqn_of, triplet
from ends import run_main
from trial import difference

TOP = Path(__file__).resolve().parent.parent
sys.path.append(str(TOP / "bench"))
needs_cryptography = unittest.skipIf(ciphers.Cipher is None, "Python's cryptography is missing")
# FIPS 197 Appendix B and Appendix C.1: key, block, encrypted block.
BLOCKS = """
2b7e151628aed2a6abf7158809cf4f3c 3243f6a8885a308d313198a2e0370734 3925841d02dc09fbdc118597196a0b32
000102030405060708090a0b0c0d0e0f 00112233445566778899aabbccddeeff 69c4e0d86a7b0430d8cdb78070b4c55a
"""
# NIST SP 800-38A F.2.1: the first two blocks of text, and the encrypted ones.
CHAINED = ("6bc1bee22e409f96e93d7e117393172aae2d8a571e03ac9c9eb76fac45af8e51",
           "7649abac8119b246cee98e9b12e9197d5086cb9b507219ee95db113a917678b2")
# TS 35.208, test sets 1 to 6: K, OP, OPc, RAND, SQN, AMF; f1, f1*, f2, f3, f4, f5, f5*.
SETS = """
465b5ce8b199b49faa5f0a2ee238a6bc cdc202d5123e20f62b6d676ac72cb318 cd63cb71954a9f4e48a5994e37a02baf
23553cbe9637a89d218ae64dae47bf35 ff9bb4d0b607 b9b9 4a9ffac354dfafb3 01cfaf9ec4e871e9 a54211d5e3ba50bf
b40ba9a3c58b2a05bbf0d987b21bf8cb f769bcd751044604127672711c6d3441 aa689c648370 451e8beca43b

0396eb317b6d1c36f19c1c84cd6ffd16 ff53bade17df5d4e793073ce9d7579fa 53c15671c60a4b731c55b4a441c0bde2
c00d603103dcee52c4478119494202e8 fd8eef40df7d af17 5df5b31807e258b0 a8c016e51ef4a343 d3a628ed988620f0
58c433ff7a7082acd424220f2b67c556 21a8c1f929702adb3e738488b9f5c5da c47783995f72 30f1197061c1

fec86ba6eb707ed08905757b1bb44b8f dbc59adcb6f9a0ef735477b7fadf8374 1006020f0a478bf6b699f15c062e42b3
9f7c8d021accf4db213ccff0c7f71a6a 9d0277595ffc 725c 9cabc3e99baf7281 95814ba2b3044324 8011c48c0c214ed2
5dbdbb2954e8f3cde665b046179a5098 59a92d3b476a0443487055cf88b2307b 33484dc2136b deacdd848cc6

9e5944aea94b81165c82fbf9f32db751 223014c5806694c007ca1eeef57f004f a64a507ae1a2a98bb88eb4210135dc87
ce83dbc54ac0274a157c17f80d017bd6 0b604a81eca8 9e09 74a58220cba84c49 ac2cc74a96871837 f365cd683cd92e96
e203edb3971574f5a94b0d61b816345d 0c4524adeac041c4dd830d20854fc46b f0b9c08ad02e 6085a86c6f63

4ab1deb05ca6ceb051fc98e77d026a84 2d16c5cd1fdf6b22383584e3bef2a8d8 dcf07cbd51855290b92a07a9891e523e
74b0cd6031a1c8339b2b6ce2b8c4a186 e880a1b580b6 9f07 49e785dd12626ef2 9e85790336bb3fa2 5860fc1bce351e7e
7657766b373d1c2138f307e3de9242f9 1c42e960d89b8fa99f2744e0708ccb53 31e11a609118 fe2555e54aa9

6c38a116ac280c454f59332ee35c8c4f 1ba00a1a7c6700ac8c3ff3e96ad08725 3803ef5363b947c6aaa225e58fae3934
ee6466bc96202c5a557abbeff8babf63 414b98222181 4464 078adfb488241a57 80246b8d0186bcf1 16c8233f05a0ac28
3f8c7587fe8e4b233af676aede30ba3b a7466cc1e6b2a1337d49d3b66e95d7b4 45b0f69ab06c 1f53cd2b1113
"""
# FIPS 186-2 with change notice 1: XKEY, and the first two words.
XKEY, WORDS = "bd029bbe7f51960bcf9edb2b61f06f0feb5a38b6", ("2070b3223dba372fde1c0ffc7b2e3b498b260614"
                                                         "3c6c18bacb0f6c55babb13788e20d737a3275116")
# RFC 5448 Appendix C, test cases 1 and 2, which differ in the network name: CK', IK', K_encr, K_aut, K_re,
# MSK and EMSK.
IDENTITY, CK, IK = b"0555444333222111", "5349fbe098649f948f5d2e973a81c00f", "9744871ad32bf9bbd1dd5ce54e3e2e5a"
AUTN = "bb52e91c747ac3ab2a5c23d15ee351d5"
CASES = {
    b"WLAN": """
0093962d0dd84aa5684b045c9edffa04 ccfc230ca74fcc96c0a5d61164f5a76c 766fa0a6c317174b812d52fbcd11a179
0842ea722ff6835bfa2032499fc3ec23c2f0e388b4f07543ffc677f1696d71ea
cf83aa8bc7e0aced892acc98e76a9b2095b558c7795c7094715cb3393aa7d17a
67c42d9aa56c1b79e295e3459fc3d187d42be0bf818d3070e362c5e967a4d544
e8ecfe19358ab3039aff03b7c930588c055babee58a02650b067ec4e9347c75a
f861703cd775590e16c7679ea3874ada866311de290764d760cf76df647ea01c
313f69924bdd7650ca9bac141ea075c4ef9e8029c0e290cdbad5638b63bc23fb
""",
    b"HRPD": """
3820f0277fa5f77732b1fb1d90c1a0da db94a0ab557ef6c9ab48619ca05b9a9f 05ad73ac915fce89ac77e1520d82187b
5b4acaef62c6ebb8882b2f3d534c4b35277337a00184f20ff25d224c04be2afd
3f90bf5c6e5ef325ff04eb5ef6539fa8cca8398194fbd00be425b3f40dba10ac
87b321570117cd6c95ab6c436fb5073ff15cf85505d2bc5bb7355fc21ea8a757
57e8f86a2b138002e05752913bb43b82f868a96117e91a2d95f526677d572900
c891d5f20f148a1007553e2dea555c9cb672e9675f4a66b4bafa027379f93aee
539a5979d0a0042b9d2ae28bed3b17a31dc8ab75072b80bd0c1da612466e402c
""",
}


class Standards(unittest.TestCase):
    def test_each_aes_gives_the_examples(self):
        for line in BLOCKS.split("\n")[1:-1]:
            key, block, wanted = map(bytes.fromhex, line.split())
            for encrypt in Aes(key).encrypt, ciphers.encryption(key):
                self.assertEqual(encrypt(block), wanted)

    @needs_cryptography
    def test_chained_blocks_give_the_example(self):
        key, (text, wanted) = bytes.fromhex(BLOCKS.split()[0]), map(bytes.fromhex, CHAINED)
        self.assertEqual(ciphers.encrypted(key, text, bytes(range(16))), wanted)
        self.assertEqual(ciphers.decrypted(key, wanted, bytes(range(16))), text)

    def test_each_function_gives_the_values_of_the_test_sets(self):
        for given in SETS.split("\n\n"):
            k, op, opc, rand, sqn, amf, *wanted = map(bytes.fromhex, given.split())
            encrypt = Aes(k).encrypt
            f = Functions(encrypt, opc, rand)
            self.assertEqual(opc_of(encrypt, op), opc)
            self.assertEqual([*f.f1(sqn, amf), f.res, f.ck, f.ik, f.ak, f.ak_star], wanted)
            autn = f.autn(sqn, amf)
            self.assertEqual((f.sqn_of(autn), f.is_right(autn), f.sqn_in(f.auts(sqn))), (sqn, True, sqn))

    def test_triplet_is_that_of_the_test_set(self):
        # TS 55.205, test set 1.
        k, _, opc, rand = map(bytes.fromhex, SETS.split()[:4])
        f = Functions(Aes(k).encrypt, opc, rand)
        self.assertEqual([it.hex() for it in triplet(f.res, f.ck, f.ik)], ["46f8416a", "eae4be823af9a08b"])

    def test_generator_gives_the_published_words(self):
        self.assertEqual(keys.generated(bytes.fromhex(XKEY))[:40].hex(), WORDS)

    def test_keys_are_those_of_the_published_cases(self):
        f, autn = SimpleNamespace(ck=bytes.fromhex(CK), ik=bytes.fromhex(IK)), bytes.fromhex(AUTN)
        for name, wanted in CASES.items():
            found = keys.Keys(50, name, IDENTITY, autn, f)
            self.assertEqual(b"".join((*found.pair, *found.words)).hex(), "".join(wanted.split()))
            self.assertEqual((found.encr, found.aut, found.master), tuple(found.words[:3]))


class Usims(unittest.TestCase):
    """The rules of TS 33.102 Annex C, for which no test set was published."""

    def note(self, usim, number):
        f = usim.functions(bytes(16))
        return usim.challenge(bytes(16), f.autn(sqn_of(number), b"\x80\0"))[0].split()[0]

    def test_number_is_accepted_once_and_within_reach(self):
        k, _, opc = map(bytes.fromhex, SETS.split()[:3])
        usim = Usim(lambda rand: Functions(Aes(k).encrypt, opc, rand), 40)
        numbers = (40, 41, 41, 60, 50, 28, 60 + 2**28 + 1, 60 + 2**28)
        notes = ["sync", "accepted", "sync", "accepted", "accepted", "sync", "sync", "accepted"]
        self.assertEqual([self.note(usim, number) for number in numbers], notes)


class Attributes(unittest.TestCase):
    def test_walk_ends_where_no_attribute_follows(self):
        cases = [("", []), ("0b010000", [(11, 2, 4)]), ("0b010000" "05", [(11, 2, 4), (None, 4, 5)]),
                 ("0b010000" "0500", [(11, 2, 4), (None, 4, 6)]), ("0b020000", [(None, 0, 4)])]
        for data, wanted in cases:
            data = bytes.fromhex(data)
            self.assertEqual(list(places_in(data)), wanted)
            if wanted and wanted[-1][0] is None:
                self.assertEqual(values_in(data), {})
                self.assertRaises(Fault, read, data)


@needs_cryptography
class Comparisons(unittest.TestCase):
    def test_rows_of_both_ends_are_those_of_the_program(self):
        import eap_rows
        rows = list(eap_rows.rows())
        for place, name in enumerate(("stdin", "stdout")):
            wanted = (TOP / "crates/auc_ends_cli" / name).read_text()
            self.assertIsNone(difference("".join(f"{row[place]}\n" for row in rows), wanted), name)

    def test_examples_with_sessions_alone_are_those_of_the_program(self):
        import network
        texts = {path: path.read_text() for path in sorted((TOP / "examples").glob("*.scenario"))}
        read = {path: text for path, text in texts.items() if network.is_readable(text)}
        self.assertGreater(len(read), 15)
        for path, text in read.items():
            wanted = path.with_suffix(".expected").read_text()
            self.assertIsNone(difference(network.World(text).output(), wanted), path.name)


if __name__ == "__main__":
    run_main(unittest.main, __doc__)
