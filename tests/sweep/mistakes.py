#!/usr/bin/env python3
"""Put mistakes into the model of the section file, one at a time: each must show in some case; otherwise the cases
would not notice a program that makes it.

    mistakes.py ROOT
"""
import sys
import types
from pathlib import Path

ROOT = Path(sys.argv[1])
sys.path.append(str(ROOT / "tests/model"))

import section  # noqa: E402
from cases import cases  # noqa: E402

# A place of section.py, and what the mistake makes of it.
MISTAKES = (
    ("1 <= count", "0 <= count"),
    ("count <= MOST_SECTIONS", "count < MOST_SECTIONS"),
    ("count <= MOST_SECTIONS", "count <= MOST_SECTIONS + 1"),
    ("count <= MOST_SECTIONS", "count % 256 <= MOST_SECTIONS"),
    ("flags <= BIG + WIDE", "flags <= 4"),
    ("flags <= BIG + WIDE", "flags % 256 <= 3"),
    ("flags <= BIG + WIDE", "flags < 3"),
    ("total == len(file)", "True"),
    ("total == len(file)", "total <= len(file)"),
    ("total == len(file)", "total >= len(file)"),
    ("total == len(file)", "total % 65536 == len(file)"),
    ("<= len(file) <= MOST_BYTES", "<= len(file) <= MOST_BYTES + 1"),
    ("<= len(file) <= MOST_BYTES", "<= len(file) < MOST_BYTES"),
    ("<= len(file) <= MOST_BYTES", "<= len(file)"),
    ("records_end(file) <= len(file)", "records_end(file) < len(file)"),
    ("section.length < WORD_BYTES or", ""),
    (" or section.length % WORD_BYTES", ""),
    ("section.length % WORD_BYTES", "section.length % 2"),
    ("section.offset < free_from", "section.offset <= free_from"),
    ("section.offset < free_from", "section.offset + 1 < free_from"),
    ("section.offset < free_from", "section.offset < records_end(file)"),
    ("section.offset < free_from", "section.offset % 2 or section.offset < free_from"),
    ("section.offset < free_from", "section.offset % 4 or section.offset < free_from"),
    ("free_from = records_end(file)", "free_from = HEADER_BYTES"),
    ("free_from = records_end(file)", "free_from = HEADER_BYTES + RECORD_BYTES"),
    ("free_from = section.end", "free_from = section.offset"),
    ("free_from = section.end", "free_from = section.offset + 1"),
    ("section.end > len(file)", "section.end >= len(file)"),
    ("section.end > len(file)", "section.offset >= len(file)"),
    ("section.end > len(file)", "section.end % 2**32 > len(file)"),
    ("section.end > len(file)", "section.length > len(file)"),
    ("in sections(file):", "in sections(file)[:1]:"),
    ("in sections(file):", "in sections(file)[-1:]:"),
    ("in sections(file):", "in sections(file)[:63]:"),
    ("return BAD_FILE", "return BAD_RECORD"),
    ("else BAD_RECORD", "else BAD_FILE"),
    ("return BAD_FILE", "return BAD_RECORD if len(file) >= 40 and not records_are_good(file) else BAD_FILE"),
)


def refusal(model, data):
    # A mistake may make the model read where nothing is; that shows as well.
    try:
        return model.refusal(data)
    except Exception:  # noqa: BLE001
        return None


def mistaken(text, place, instead):
    if text.count(place) != 1:
        sys.exit(f"section.py does not have `{place}` once")
    model = types.ModuleType("mistaken")
    sys.modules["mistaken"] = model
    exec(text.replace(place, instead), model.__dict__)
    return model


def main():
    text = Path(section.__file__).read_text(encoding="utf-8")
    files = [(data, section.refusal(data)) for _, data in cases(ROOT)]
    for place, instead in MISTAKES:
        model = mistaken(text, place, instead)
        if all(refusal(model, data) == number for data, number in files):
            sys.exit(f"no case notices `{instead}` for `{place}`")
    print(len(MISTAKES))


main()
