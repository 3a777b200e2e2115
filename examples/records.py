#!/usr/bin/env python3
"""records.py FILE: the records of a volume, with exact fractions; a volume that is damaged is said so, with number and place."""
import sys

import awaqlla

try:
    for record in awaqlla.Volume.read(sys.argv[1]):
        print(record.name, record.date, "mean", record.mean, "spread", record.spread)
        for chance, limit in record.limits.items():
            print(f"  {chance} in a million take longer than {limit} ticks, {float(limit) / 100:.5f} ms")
except awaqlla.Damaged as fault:
    sys.exit(f"{sys.argv[1]}: damaged {fault.number} at byte {fault.place}")
