#!/usr/bin/env python3
"""Compares maulgreen_layout.h with the structs of crates/flash_c/src/shapes.rt, laid out by C's rule: a field lies at the next
multiple of its alignment, and a struct ends at one of its greatest."""
import re
import sys
from pathlib import Path

HERE = Path(__file__).resolve().parent
# The structs that have another name in C than FlashPlan has in mg_plan.
OTHERS = {"FlashJob": "mg_job_head", "FlashOutcome": "mg_job_outcome", "FlashWorst": "mg_worst_job",
          "FlashOverdue": "mg_overdue_job",
          "FlashCertificate": "mg_cert", "FlashPlace": "mg_cell"}
sizes = {"u8": (1, 1), "u32": (4, 4), "u64": (8, 8), "i64": (8, 8)}


def up(to, multiple):
    return -(-to // multiple) * multiple


def size_of(kind):
    array = re.match(r"\[(\w+); (\d+)\]", kind)
    if not array:
        return sizes[kind]
    size, align = sizes[array[1]]
    return size * int(array[2]), align


laid_out = []
for name, body in re.findall(r"#\[repr\(C\)\]\n#\[[^\n]*\]\npub struct (\w+) \{(.*?)\n\}", (HERE / "../../crates/flash_c/src/shapes.rt").read_text(), re.S):
    in_c = OTHERS.get(name, "mg_" + name.removeprefix("Flash").lower())
    end, greatest, fields = 0, 1, []
    for field, kind in re.findall(r"pub (\w+): ([^,]+),", body):
        size, align = size_of(kind)
        fields.append(f"MG_AT({in_c}, {field}, {up(end, align)});")
        end, greatest = up(end, align) + size, max(greatest, align)
    sizes[name] = up(end, greatest), greatest
    laid_out += [f"MG_SIZE({in_c}, {sizes[name][0]});"] + (fields if in_c != "mg_name" else [])

said = re.findall(r"^MG_(?:SIZE|AT)\([^)]*\);$", (HERE / "maulgreen_layout.h").read_text(), re.M)
said = [line for line in said if not re.search("mg_die|mg_mount|mg_planned|mg_spares", line)]
apart = sorted(set(laid_out) ^ set(said))
if apart or len(said) < 70:
    sys.exit("wrong: " + " ".join(apart))
print(f"right: {len(said)} sizes and places of fields")
