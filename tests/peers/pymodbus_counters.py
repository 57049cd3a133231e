"""A pymodbus client asks the station on the given device for its counters, in RTU or in ASCII, while it counts itself what goes over the
line: good frames, exceptions, frames for another station and for all, wrong checks, clears. The station has to have heard nothing before.
Prints a line each: verdict, what was asked, what came, what was expected."""

import logging
import sys
import time

from pymodbus.bit_read_message import ReadDiscreteInputsRequest
from pymodbus.client import ModbusSerialClient
from pymodbus.diag_message import (
    ClearCountersRequest,
    ForceListenOnlyModeRequest,
    RestartCommunicationsOptionRequest,
    ReturnBusCommunicationErrorCountRequest,
    ReturnBusExceptionErrorCountRequest,
    ReturnBusMessageCountRequest,
    ReturnDiagnosticRegisterRequest,
    ReturnQueryDataRequest,
    ReturnSlaveMessageCountRequest,
    ReturnSlaveNAKCountRequest,
    ReturnSlaveNoResponseCountRequest,
)
from pymodbus.exceptions import ModbusException
from pymodbus.framer.ascii_framer import ModbusAsciiFramer
from pymodbus.framer.rtu_framer import ModbusRtuFramer
from pymodbus.register_read_message import ReadHoldingRegistersRequest
from pymodbus.register_write_message import WriteSingleRegisterRequest

logging.disable(logging.CRITICAL)
device, protocol = sys.argv[1:]
framer = {"rtu": ModbusRtuFramer, "ascii": ModbusAsciiFramer}[protocol]
failures = 0
OWN, OTHER, ALL = 1, 2, 0

line = ModbusSerialClient(device, framer=framer, baudrate=9600, parity="N", timeout=1, retries=0)
if not line.connect():
    sys.exit(f"{device}: no connection")

# ---- what went over the line since the last clear, not cut

COUNTS = {
    "bus": ("0B", ReturnBusMessageCountRequest),
    "damaged": ("0C", ReturnBusCommunicationErrorCountRequest),
    "exceptions": ("0D", ReturnBusExceptionErrorCountRequest),
    "own": ("0E", ReturnSlaveMessageCountRequest),
    "unanswered": ("0F", ReturnSlaveNoResponseCountRequest),
}
seen = dict.fromkeys(COUNTS, 0)


def went(station):
    """A frame with a right check to this station."""
    seen["bus"] += 1
    seen["own"] += station in (OWN, ALL)
    seen["unanswered"] += station == ALL


# ---- frames that are answered


def came_of(reply):
    if isinstance(reply, ModbusException):
        return str(reply)
    if reply.isError():
        return f"exception {reply.exception_code:02X}"
    words = reply.message if hasattr(reply, "message") else reply.registers
    return " ".join(f"{word:04X}" for word in words)


def ask(asked, request, expected):
    global failures
    went(OWN)
    seen["exceptions"] += expected.startswith("exception")
    try:
        reply = line.execute(request)
    except ModbusException as error:
        reply = error
    came = came_of(reply)
    good = came == expected
    failures += not good
    print(f"{'ok' if good else 'BAD':4} pymodbus {protocol:5} {asked:42} {came:32} {expected}", flush=True)


def counts(when):
    """All five. A frame counts before it is answered: 0B and 0E show the one that asks."""
    for name, (sub_function, request) in COUNTS.items():
        shown = min(seen[name] + (name in ("bus", "own")), 0xFFFF)
        ask(f"08 {sub_function} {when}", request(unit=OWN), f"{shown:04X}")


# ---- frames that are not


def put(frames):
    line.socket.write(frames)
    line.socket.flush()
    time.sleep(0.1)


def say(request):
    went(request.unit_id)
    put(line.framer.buildPacket(request))


def say_damaged(request, times=1):
    """With a wrong check, which in ASCII is still one of two hex characters."""
    frame = bytearray(line.framer.buildPacket(request))
    if protocol == "rtu":
        frame[-1] ^= 0x10
    else:
        frame[-3] = ord("1" if frame[-3] == ord("0") else "0")
    seen["damaged"] += times
    put(bytes(frame) * times)


def read(address, station=OWN):
    return ReadHoldingRegistersRequest(address, 1, station)


counts("at the start")
ask("03 of 105", read(105), "1234")
ask("03 of 108: a hole", read(108), "exception 02")
ask("02 of 160: not a function here", ReadDiscreteInputsRequest(160, 1, OWN), "exception 01")
ask("08 00: 1234", ReturnQueryDataRequest(0x1234, unit=OWN), "1234")
ask("08 00: A55A", ReturnQueryDataRequest(0xA55A, unit=OWN), "A55A")
counts("after good ones and exceptions")

say(read(105, OTHER))
say(ClearCountersRequest(unit=OTHER))
say(WriteSingleRegisterRequest(104, 0x5678, ALL))
say(WriteSingleRegisterRequest(108, 1, ALL))  # a hole: not carried out
say(read(105, ALL))
say(ClearCountersRequest(unit=ALL))
ask("03 of 104, written to station 0", read(104), "5678")
counts("after another station's, and all's")

say_damaged(read(105))
say_damaged(ClearCountersRequest(unit=OWN))
say_damaged(read(105, OTHER))
counts("after wrong checks")

ask("08 00: two words", ReturnQueryDataRequest([1, 2], unit=OWN), "exception 03")
ask("08 00: no word", ReturnQueryDataRequest([], unit=OWN), "exception 03")
ask("08 0A: data that isn't 0", ClearCountersRequest(0x0100, unit=OWN), "exception 03")
ask("08 0B: data that isn't 0", ReturnBusMessageCountRequest(1, unit=OWN), "exception 03")
ask("08 01: not here", RestartCommunicationsOptionRequest(unit=OWN), "exception 01")
ask("08 02: not here", ReturnDiagnosticRegisterRequest(unit=OWN), "exception 01")
ask("08 04: not here", ForceListenOnlyModeRequest(unit=OWN), "exception 01")
ask("08 10: not here", ReturnSlaveNAKCountRequest(unit=OWN), "exception 01")
counts("after refused ones")

if protocol == "ascii":  # in RTU silence would have to part so many
    say_damaged(read(105), 70000)
    time.sleep(2)  # what a slow station has not heard yet
    counts("after 70,000 more wrong checks")

ask("08 0A", ClearCountersRequest(unit=OWN), "0000")
seen = dict.fromkeys(COUNTS, 0)
counts("after it")
say_damaged(read(105))
say(read(105, OTHER))
say(read(105, ALL))
ask("03 of 108: a hole", read(108), "exception 02")
counts("after one of each kind")
line.close()
sys.exit(failures != 0)
