"""EAP-AKA (RFC 4187) and EAP-AKA' (RFC 9048) in Python: the one library of the scripts of tools/ and bench/.

milenage.py    Milenage and an AES that needs no library: the test sets of TS 35.208 and FIPS 197
usim.py        a USIM with its array of SEQs, sequence numbers, GSM triplets: TS 55.205
ciphers.py     AES and ChaCha20 of Python's `cryptography`: FIPS 197 and SP 800-38A
keys.py        the keys of full authentications and re-authentications: FIPS 186-2 and RFC 5448 Appendix C
attributes.py  the attributes: types, one walk through them, written and read
messages.py    packets and messages, AT_MAC, AT_ENCR_DATA, AT_CHECKCODE
streams.py     the random bytes of a run
names.py       identities, and the names that a server gives
session.py     what both ends share, the subscriber's row at home, and the device
server.py      the server's end
peer.py        the peer's end
lines.py       both ends in the lines of crates/auc_ends_cli

It is a second implementation, which shares nothing with the crates. tools/test_eap.py compares it with the
test sets that are named above. For the rest no test sets were published: there its ends are compared with
the proved program, by the rows of crates/auc_ends_cli (tools/eap_rows.py), by the examples and by random
scenarios (bench/network.py), and the keys of re-authentications with hostapd's (bench/foreign_keys.py).
"""
