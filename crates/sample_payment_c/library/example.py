"""Reads bytes, and says whether they are accepted as buffa.sample.Payment, with the encoding of what they mean."""
import sys

import sample_payment_c

data = sys.stdin.buffer.read()
try:
    sample_payment_c.payment_check(data)
    print(sample_payment_c.payment_canonical(data).hex())
except sample_payment_c.Refused as refused:
    print("refused:", sample_payment_c.payment_place(data) or refused)
    sys.exit(1)
