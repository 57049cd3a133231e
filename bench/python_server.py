#!/usr/bin/python3
"""pymodbus' rows: `python_server.py ROW WORDS` prints the nanoseconds that its RTU server takes for a request of bench/work.h, the least of 200 runs
of 20. The framer is given the frame in memory and its reply is made and looked at; no line, no loop and no thread is in it."""
import struct
import sys
import time

from pymodbus.datastore import ModbusSequentialDataBlock, ModbusServerContext, ModbusSlaveContext
from pymodbus.factory import ServerDecoder
from pymodbus.framer.rtu_framer import ModbusRtuFramer
from pymodbus.utilities import computeCRC


def body(row):
    """The request without its check, and the length of its reply, 0 for none."""
    if row in ("other", "wrong"):
        return struct.pack(">BBHH", 2 if row == "other" else 1, 3, 100, 1), 0
    if row == "06":
        return struct.pack(">BBHH", 1, 6, 100, 0x1234), 8
    if row == "05":
        return struct.pack(">BBHH", 1, 5, 208, 0xFF00), 8
    function, count = row.split("x")
    count = int(count)
    if function == "03":
        return struct.pack(">BBHH", 1, 3, 100, count), 5 + 2 * count
    values = bytes((7 * k + 3) % 256 for k in range(2 * count))
    return struct.pack(">BBHHB", 1, 0x10, 100, count, 2 * count) + values, 8


def main():
    row, words = sys.argv[1].removeprefix("rtu-"), int(sys.argv[2])
    request, expected = body(row)
    frame = request + struct.pack(">H", computeCRC(request))
    if row == "wrong":
        frame = frame[:-1] + bytes([frame[-1] ^ 1])
    block = ModbusSequentialDataBlock(0, [0] * (words + 1))
    context = ModbusServerContext({1: ModbusSlaveContext(hr=block, co=ModbusSequentialDataBlock(0, [0] * (words + 1)), zero_mode=True)}, single=False)
    framer = ModbusRtuFramer(ServerDecoder(), client=None)
    replies = []

    def answer(asked):
        reply = asked.execute(context[asked.unit_id])
        reply.transaction_id, reply.unit_id = asked.transaction_id, asked.unit_id
        replies.append(framer.buildPacket(reply))

    def once():
        framer.processIncomingPacket(frame, answer, context.slaves())
        if [len(reply) for reply in replies] != ([expected] if expected else []):
            sys.exit(f"pymodbus gives {replies} to {row}")
        replies.clear()
        framer.resetFrame()

    least = None
    for _ in range(200):
        began = time.perf_counter_ns()
        for _ in range(20):
            once()
        taken = (time.perf_counter_ns() - began) / 20
        least = taken if least is None else min(least, taken)
    print(f"{least:.0f}")


main()
