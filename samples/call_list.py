"""The stored list of scripts of calls, each judged and held to the answers it states."""

import struct

from call_chance import chance_scripts
from call_faults import OTHER_IMAGES, body_scripts, call_scripts
from call_notation import YARD, commands
from call_scripts import SCRIPTS
from calls import CALL_RULES, Replay
from held_corners import HELD, NAME_LIST
from match_chance import match_scripts
from match_corners import HARBOUR, match_corners
from readable import damaged, name_list
from records import SCRIPT, record


def all_scripts():
    """Name, what it shows, image, commands, and the answers where they are stated."""
    image = YARD.encode()
    for name, text, script, answers in SCRIPTS:
        yield name, text, image, commands(script), answers
    for name, rule, script, answers in (*body_scripts(), *call_scripts()):
        yield name, f"Number 2 for the rule {rule}.", image, commands(script), answers
    for name, text, other, script, answers in OTHER_IMAGES:
        yield name, text, other, commands(script), answers
    for name, text, script, answers in match_corners():
        yield name, text, HARBOUR.encode(), commands(script, HARBOUR), answers
    for name, text, script, answers in HELD:
        yield name, text, HARBOUR.encode(), commands(script, HARBOUR), answers
    crew = name_list()
    for name, text, script, answers in NAME_LIST:
        yield name, text, crew.encode(), commands(script, crew), answers
    yield ("match_damaged", "An image that ends too soon is 1.", damaged(),
           commands("blocks=1; match 0 0 -; assign 0 0; self 0 0 0"), "refused 1, refused 1, refused 1")
    for name, text, other, script in (*chance_scripts(), *match_scripts()):
        yield name, text, other, script, None


def stated(answers, lines):
    """The lines begin with these answers; `..` in front stands for any others."""
    wanted = answers.removeprefix(".. ").split(", ")
    found = lines[-len(wanted):] if answers.startswith(".. ") else lines
    return len(found) == len(wanted) and all(
        line.startswith(f"{answer} ") for answer, line in zip(wanted, found))


def lines_of(image, script):
    """The lines that a script prints, and the rules broken alone at one of its calls."""
    replay, lines, alone = Replay(image), [], set()
    for command in script:
        line = replay.line(*command)
        lines += [line] if line else []
        alone.update(replay.rules if len(replay.rules) == 1 else ())
    return lines, alone


def script_record(image, script):
    """One script as the stored list has it."""
    words = b"".join(struct.pack(">4H", *command) for command in script)
    return record(SCRIPT, image) + struct.pack(">I", len(script)) + words


def call_records(before):
    """The scripts' records, the lines printed for them, and calls.txt; so many lines are printed before."""
    given, printed, listed, names, alone = [], [], [], set(), set()
    for name, text, image, script, answers in all_scripts():
        lines, broken_alone = lines_of(image, script)
        assert answers is None or stated(answers, lines), (name, answers, lines)
        assert name not in names and " " not in name, name
        names.add(name)
        alone.update(broken_alone if answers is not None else ())
        listed.append(f"{before + len(printed) + 1} {name} {text}\n")
        given.append(script_record(image, script))
        printed.extend(lines)
    assert alone == set(CALL_RULES), set(CALL_RULES) - alone
    return given, [f"{line}\n" for line in printed], "".join(listed)
