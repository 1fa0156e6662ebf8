"""What an mbox holds: for each message when it was sent, and then the threads, each row at its depth.

    python3 example.py < MBOX
"""
import sys

import luvazhimba

mbox = sys.stdin.buffer.read()
messages = luvazhimba.cut(mbox)
for place, it in enumerate(messages):
    print(place, "sent", luvazhimba.sent_date(mbox[it.start:it.end], it.arrival))
for row in luvazhimba.threads(mbox, messages):
    print("  " * row.depth + ("-" if row.place is None else str(row.place)))
