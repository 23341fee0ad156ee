"""The standard blocks: what one call does (docs/LANGUAGE.md, 8)."""
from .tables import STANDARD

HIDDEN = {"R_TRIG": {"M": False}, "CTU": {"M": False}, "TON": {"run": False, "start": 0}, "TOF": {"phase": 0, "start": 0}, "TP": {"phase": 0, "start": 0}}


def first_values(kind):
    """The values of a new instance; hidden fields have a dot before their name, so that no text names them."""
    inputs, outputs, _ = STANDARD[kind]
    values = {name: False if of == "BOOL" else 0 for name, of in {**inputs, **outputs}.items()}
    values.update({"." + name: value for name, value in HIDDEN.get(kind, {}).items()})
    return values


def r_trig(v, now):
    """A rising edge."""
    v["Q"] = v["CLK"] and not v[".M"]
    v[".M"] = v["CLK"]


def sr(v, now):
    """A latch whose setting input is the stronger."""
    v["Q1"] = v["S1"] or (not v["R"] and v["Q1"])


def rs(v, now):
    """A latch whose resetting input is the stronger."""
    v["Q1"] = not v["R1"] and (v["S"] or v["Q1"])


def ctu(v, now):
    """A counter that counts up."""
    edge = v["CU"] and not v[".M"]
    v[".M"] = v["CU"]
    if v["R"]:
        v["CV"] = 0
    elif edge and v["CV"] < 2147483647:
        v["CV"] += 1
    v["Q"] = v["CV"] >= v["PV"]


def ton(v, now):
    """A timer with a delay before on."""
    if not v["IN"]:
        v[".run"], v["Q"], v["ET"] = False, False, 0
        return
    if not v[".run"]:
        v[".run"], v[".start"] = True, now
    passed, preset = now - v[".start"], max(v["PT"], 0)
    v["Q"], v["ET"] = passed >= preset, min(passed, preset)


def tof(v, now):
    """A timer with a delay before off."""
    if v["IN"]:
        v[".phase"], v["Q"], v["ET"] = 1, True, 0
        return
    if v[".phase"] == 0:
        v["Q"], v["ET"] = False, 0
    if v[".phase"] == 1:
        v[".phase"], v[".start"] = 2, now
    if v[".phase"] == 2:
        passed, preset = now - v[".start"], max(v["PT"], 0)
        v["Q"], v["ET"] = passed < preset, min(passed, preset)


def tp(v, now):
    """A pulse."""
    preset = max(v["PT"], 0)
    if v[".phase"] == 2:
        v["Q"], v["ET"] = False, preset if v["IN"] else 0
        v[".phase"] = 2 if v["IN"] else 0
        return
    if v[".phase"] == 0:
        v["Q"], v["ET"] = False, 0
        if not v["IN"]:
            return
        v[".phase"], v[".start"] = 1, now
    passed = now - v[".start"]
    if passed < preset:
        v["Q"], v["ET"] = True, passed
    else:
        v["Q"], v[".phase"], v["ET"] = False, 2 if v["IN"] else 0, preset if v["IN"] else 0


CALLED = {"R_TRIG": r_trig, "SR": sr, "RS": rs, "CTU": ctu, "TON": ton, "TOF": tof, "TP": tp}
