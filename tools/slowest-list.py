#!/usr/bin/env python3
"""slowest-list.py: writes the input and the output of the test of `slowest`, and the input of `session_slowest`, from the runs as they stand here.

slowest-list.py --play SLOWEST PROGRAM..: has SLOWEST print every kind with 0 to 32 idle reads, and each PROGRAM play the script from fresh. Each script
has to be the one that stands here, none of its lines may be refused at once, its last line has to end the call, and no other line of the call. The
PROGRAMs have to answer alike; a call that the Rust does not have is left out with a PROGRAM whose name has `oracle` in it.

The runs are written by hand from document 01 (steps 1 to 5, the opening, the discoveries) and docs/SCRIPTS.md, apart from the definitions."""
import itertools, pathlib, subprocess, sys

ROOT = pathlib.Path(__file__).resolve().parent.parent
ACK = "pkt 0000FF00FF00"
VERSION, READ, WRITE, PARAMETERS, RESET, CONFIGURATION, LIST, JUMP = 0x02, 0x06, 0x08, 0x12, 0x18, 0x32, 0x4A, 0x56


def frame(payload):
    """A normal frame, PN532 user manual, section 6.2.1."""
    n = len(payload)
    return bytes([0, 0, 0xFF, n, -n % 256, *payload, -sum(payload) % 256, 0]).hex().upper()


def well(code, *data):
    """A command that goes well."""
    return ["ok", ACK, "pkt " + frame([0xD5, code + 1, *data])]


WAIT, OVER, RESET_DONE, OPENS = ["ok", ACK], ["late", "ok"], ["ok", "slept"], ["ok", "time"]
FAILS = WAIT + OVER
CONFIGURED = well(VERSION, 0x33, 0x01, 0x30, 0x07) + well(CONFIGURATION) * 5 + well(PARAMETERS)
OPENING = ["open"] + OPENS + well(RESET) + RESET_DONE + CONFIGURED + well(RESET) + RESET_DONE + well(WRITE, 0)
TYPE_A = well(LIST, 0) + FAILS + well(LIST, 1, 1) + WAIT

# name, most events, the call's line, the events up to the wait of the last command, those behind it
SPECIAL = {
    "open": (39, "open", OPENS + FAILS + RESET_DONE + CONFIGURED + FAILS + RESET_DONE + WAIT, OVER),
    "reset_mode": (6, "reset_mode", WAIT, OVER + RESET_DONE),
    "detect_type_a": (14, "detect_type_a 106A -", TYPE_A, OVER),
    "detect_type_b": (11, "detect_type_b 106B -", well(LIST, 1, 1, *[0] * 10, 1) + FAILS + WAIT, OVER),
    "detect_type_f": (11, "detect_type_f 212F 0000 00 00", well(READ, 0) + well(CONFIGURATION) + ["slept"] + WAIT, OVER),
    "detect_dep": (10, "detect_dep 106A " + "00" * 16, well(CONFIGURATION) + well(JUMP, 0, 1) + WAIT, OVER),
    "detect_type_a_split": (14, "detect_type_a 106A - split", TYPE_A, OVER),
}
LINES = [
    "open", "version", "reset_mode", "set_parameters 00", "rf_configuration 00 -", "read_register -", "write_register -", "read_single_register 0000",
    "write_single_register 0000 00", "in_list_passive_target 01 00 -", "in_data_exchange 1 -", "in_communicate_thru 1 -", "in_jump_for_dep 00 00 - - -",
    "tg_init_target 1 00 " + "00" * 6 + " " + "00" * 18 + " " + "00" * 10 + " -", "tg_set_general_bytes -", "tg_get_initiator_command 1",
    "tg_response_to_initiator -", "tg_get_target_status", "rf_field_off", "detect_type_a", "detect_type_b", "detect_type_f", "detect_dep",
    "transceive 106A none none none -", "detect_type_a_split", "read_without_encryption " + "00" * 8 + " 0000 none 00",
    "write_without_encryption " + "00" * 8 + " 0000 none 00 " + "00" * 16,
]
KINDS = {line.split(" ")[0]: SPECIAL.get(line.split(" ")[0], (4, line, WAIT, OVER)) for line in LINES}
NOT_IN_THE_RUST = ("detect_type_a_split", "read_without_encryption", "write_without_encryption")
OTHER_LINES = [
    "open 33", "version 4294967295", "version 4294967296", "poll_type_f 0", "poll_type_f 33", "iso_dep 0", "release_target 0", "ok 0", "pkt 0", "open padded",
    "open", "open 0 0", "", "open  0", " open 0", "open -1", "open 00000000000000000000000000000032", "OPEN 0", "detect_type_a_split 33", "transceive x", "version 01",
]


def script(name, idle):
    most, line, before, behind = KINDS[name]
    return ([] if name == "open" else OPENING) + [line] + before + [ACK] * idle + behind


def answer(line):
    words = line.split(" ")
    if len(words) != 2 or words[0] not in KINDS or not words[1].isdigit() or int(words[1]) > 4294967295:
        return "refused 4"
    idle = int(words[1])
    return "refused 3" if idle > 32 else f"{KINDS[words[0]][0] + idle} " + " ; ".join(script(words[0], idle))


def run(program, lines):
    text = "".join(line + "\n" for line in lines)
    return subprocess.run([program], input=text, capture_output=True, text=True, check=True).stdout.split("\n")[:-1]


def play(slowest, programs):
    asked = [(name, idle) for name, idle in itertools.product(KINDS, range(33))]
    printed = run(slowest, [f"{name} {idle}" for name, idle in asked])
    faults = lines = 0
    for (name, idle), text in zip(asked, printed, strict=True):
        played = text.split(" ", 1)[1].split(" ; ")
        answers = [run(p, played) for p in programs if not ("oracle" in p and name in NOT_IN_THE_RUST)]
        ends = [[n for n, a in enumerate(each) if a.split(" ")[0] in ("done", "none", "refused")] for each in answers]
        due = [len(played) - 1] if name == "open" else [len(OPENING) - 1, len(played) - 1]
        good = text == answer(f"{name} {idle}") and all(e == due for e in ends) and all(a == answers[0] for a in answers)
        faults, lines = faults + (not good), lines + len(played)
        if not good:
            print("differs:", name, idle)
    print(f"{len(asked)} scripts, {lines} lines, {faults} differ")
    return faults == 0


if sys.argv[1:2] == ["--play"]:
    sys.exit(0 if play(sys.argv[2], sys.argv[3:]) else 1)
tried = [f"{name} {idle}" for name in KINDS for idle in (0, 1, 32)]
(ROOT / "crates/slowest/stdin").write_text("".join(line + "\n" for line in tried + OTHER_LINES))
(ROOT / "crates/slowest/stdout").write_text("".join(answer(line) + "\n" for line in tried + OTHER_LINES))
(ROOT / "crates/session_slowest/stdin").write_text("".join(line + "\n" for line in tried))
