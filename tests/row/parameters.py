"""parameters.py RESPONSE FOLDER: a response signed by RSA-PSS, with other parameters than it was signed with.

Writes a file for each change into FOLDER. Its name begins with the verdict that has to come: 0 (not tried)
where the row does not take such parameters, 2 (invalid) where it does. Each change keeps every length.
"""
import sys

SHA_256 = bytes.fromhex("0609608648016503040201")
MGF_1 = bytes.fromhex("06092a864886f70d010108")
PSS = bytes.fromhex("06092a864886f70d01010a")
SALT = bytes.fromhex("020200de")  # 222 octets

response = open(sys.argv[1], "rb").read()
hash_at = response.index(SHA_256)
mask_at = response.index(SHA_256, hash_at + 1)
salt_at = response.index(SALT)
assert response.index(PSS) < hash_at < response.index(MGF_1) < mask_at < salt_at

CHANGES = [
    ("2 one octet of salt less", salt_at, "020200dd"),
    ("0 a salt below zero", salt_at, "02028000"),
    ("2 the hash is SHA-512", hash_at, "0609608648016503040203"),
    ("0 the hash is SHA-224", hash_at, "0609608648016503040204"),
    ("0 the hash is SHA3-256", hash_at, "0609608648016503040208"),
    ("2 the mask's hash is SHA-512", mask_at, "0609608648016503040203"),
    ("0 the mask's hash is SHA-224", mask_at, "0609608648016503040204"),
    ("0 the mask is not MGF1", response.index(MGF_1), "06092a864886f70d010109"),
    ("0 the algorithm is not RSA-PSS", response.index(PSS), "06092a864886f70d010107"),
    ("0 SHA-256 by RSA, with parameters", response.index(PSS), "06092a864886f70d01010b"),
]
for name, at, octets in CHANGES:
    new = bytes.fromhex(octets)
    with open(f"{sys.argv[2]}/{name}.der", "wb") as file:
        file.write(response[:at] + new + response[at + len(new):])
