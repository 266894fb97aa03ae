#!/usr/bin/env python3
"""Prints the text of the longest river there is: 128 reaches, each flowing into the next.

The river warms and grows on its way; every eighth reach starts with a dam that sends half of the
water through turbines, and every sixteenth takes in a town's load.
"""

REACHES = 128
HEADWATER, SEEPAGE = 20_000, 100    # inflow of the first reach and of each other, litres a second

print(f"# A chain of {REACHES} reaches, made by chain.py.")
print("# outlet temperature k1 k2 volume inflow inflow_bod inflow_oxygen load [dam share generating]")
for i in range(1, REACHES + 1):
    outlet = i + 1 if i < REACHES else 0
    temperature = 12 + i // 10
    k1, k2 = 150 + 7 * i % 200, 250 + 11 * i % 300
    volume = 400_000 + 10_000 * i
    inflow, bod, oxygen = (HEADWATER, 3_000, 9_500) if i == 1 else (SEEPAGE, 1_500, 6_000)
    load = 80_000 if i % 16 == 0 else 0
    above = HEADWATER + SEEPAGE * (i - 2)
    dam = f" dam {200 + 5 * i % 400} {above // 2}" if i % 8 == 0 else ""
    print(f"{outlet} {temperature} {k1} {k2} {volume} {inflow} {bod} {oxygen} {load}{dam}")
