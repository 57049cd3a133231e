"""A pymodbus client asks the station on the given device, in RTU or in ASCII: registers and coils read and written, exceptions, silence.
Prints a line each: verdict, what was asked, what came, what was expected."""

import logging
import sys
import time

from pymodbus.bit_read_message import ReadCoilsRequest, ReadDiscreteInputsRequest
from pymodbus.bit_write_message import WriteMultipleCoilsRequest, WriteSingleCoilRequest
from pymodbus.client import ModbusSerialClient
from pymodbus.exceptions import ModbusException
from pymodbus.framer.ascii_framer import ModbusAsciiFramer
from pymodbus.framer.rtu_framer import ModbusRtuFramer
from pymodbus.register_read_message import ReadHoldingRegistersRequest, ReadInputRegistersRequest
from pymodbus.register_write_message import (
    MaskWriteRegisterRequest,
    WriteMultipleRegistersRequest,
    WriteSingleRegisterRequest,
)

logging.disable(logging.CRITICAL)
device, protocol = sys.argv[1:]
framer = {"rtu": ModbusRtuFramer, "ascii": ModbusAsciiFramer}[protocol]
failures = 0


# Whole seconds: this version of pymodbus takes a part of one for no wait at all.
line = ModbusSerialClient(device, framer=framer, baudrate=9600, parity="N", timeout=1, retries=0)
if not line.connect():
    sys.exit(f"{device}: no connection")


def came_of(reply, seconds):
    if isinstance(reply, ModbusException):
        return "silence" if "(0 received)" in str(reply) and seconds >= 1 else str(reply)
    if reply.isError():
        return f"exception {reply.exception_code:02X}"
    if hasattr(reply, "registers"):
        return " ".join(f"{word:04X}" for word in reply.registers[:4])
    if hasattr(reply, "bits") and reply.bits:
        return "".join("1" if bit else "0" for bit in reply.bits[:16])
    return "done"


def ask(asked, request, expected):
    global failures
    start = time.monotonic()
    try:
        reply = line.execute(request)
    except ModbusException as error:
        reply = error
    came = came_of(reply, time.monotonic() - start)
    good = came == expected
    failures += not good
    print(f"{'ok' if good else 'BAD':4} pymodbus {protocol:5} {asked:42} {came:32} {expected}", flush=True)


def read(address, count):
    return ReadHoldingRegistersRequest(address, count, 1)


ask("03 of 105 to 107", read(105, 3), "1234 FFFF 0000")
ask("06: 104 = ABCD", WriteSingleRegisterRequest(104, 0xABCD, 1), "done")
ask("03 of 104", read(104, 1), "ABCD")
ask("16: 104, and 00F2, or 0025", MaskWriteRegisterRequest(104, 0x00F2, 0x0025, unit=1), "done")
ask("03 of 104", read(104, 1), "00C5")
ask("10 of 123 registers from 200", WriteMultipleRegistersRequest(200, [k * 257 for k in range(123)], 1), "done")
ask("03 of 125 registers from 200 (first four)", read(200, 125), "0000 0101 0202 0303")
ask("03 of 320 to 323", read(320, 4), "7878 7979 7A7A 5A5A")
ask("01 of coils 160 to 175", ReadCoilsRequest(160, 16, 1), "1010000000000101")
ask("05: coil 208 on", WriteSingleCoilRequest(208, True, 1), "done")
ask("0F of 11 coils from 212", WriteMultipleCoilsRequest(212, [1, 0, 1, 1, 0, 0, 0, 0, 0, 0, 1], 1), "done")
ask("01 of coils 208 to 223", ReadCoilsRequest(208, 16, 1), "1000101100000010")
ask("02 of 160: not a function here", ReadDiscreteInputsRequest(160, 1, 1), "exception 01")
ask("04 of 105: not a function here", ReadInputRegistersRequest(105, 1, 1), "exception 01")
ask("03 of 107 to 109: 108 is a hole", read(107, 3), "exception 02")
ask("03 of 140: write only", read(140, 1), "exception 02")
ask("06: 136 is read only", WriteSingleRegisterRequest(136, 1, 1), "exception 02")
ask("01 of coils 250 to 257", ReadCoilsRequest(250, 8, 1), "exception 02")
ask("03 of no register", read(105, 0), "exception 03")
ask("03 of 126 registers", read(200, 126), "exception 03")
ask("01 of 2001 coils", ReadCoilsRequest(160, 2001, 1), "exception 03")
ask("station 2: 03 of 105", ReadHoldingRegistersRequest(105, 1, 2), "silence")
line.connect()  # pymodbus closes the line after a silence
ask("station 1 again: 03 of 105", read(105, 1), "1234")
# A write to station 0, for which pymodbus waits no answer where it is told so.
line.params.broadcast_enable = True
line.execute(WriteSingleRegisterRequest(104, 0x5678, 0))
time.sleep(0.2)
ask("03 of 104, written to station 0", read(104, 1), "5678")
line.close()
sys.exit(failures != 0)
