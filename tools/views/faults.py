"""The faults of scripts and boards in words, which are those of docs/port/FORMATS.md."""
import os
import re

TOP = os.path.dirname(os.path.dirname(os.path.dirname(os.path.abspath(__file__))))
# what the tables of faults in docs/port/FORMATS.md begin with
TABLES = {"board": "| Number | Fault | Where |", "script": "| Number | Script fault | Where |",
          "machine": "| Number | Machine fault | Where |"}

# the statuses of the program where the script is at fault, and where there was too little memory
SCRIPT_FAULT, NO_MEMORY = 3, 5


def words_of(kind):
    """The faults of a table, by their numbers: the name, and where it comes."""
    with open(f"{TOP}/docs/port/FORMATS.md", encoding="utf-8") as file:
        rows = file.read().partition(TABLES[kind])[2].partition("\n\n")[0]
    found = re.findall(r"^\| (\d+) \| (\w+) \| (.*) \|$", rows, re.M)
    return {int(number): f"{name}: {where}" for number, name, where in found}


def fault(text, line=None):
    """A fault of a line, or of none, as the page has it."""
    return {"line": line, "text": text}


def fault_of(said, status, found):
    """The fault of a run that ended so: of a line of the script, in the words of the command line, which `found` are as
    front.told has them; or the program's, of which it is said that it is none of the script's. What a tool said is not
    shown as the script's fault."""
    if status == 0:
        return None
    match = re.fullmatch(r"line (\d+): ((?:script|board) fault \d+)\n", said)
    if status == SCRIPT_FAULT and match and found:
        expected = f"; expected `{found[4]}`" if found[4] else ""
        return fault(f"{match[2]}, column {found[2] + 1}: {found[3]}{expected}", int(match[1]))
    if (status, said) == (NO_MEMORY, "out of memory\n"):
        return fault("the run needs more memory than is allowed here: it stops after the last event that fitted")
    how = f"with status {status}" if status > 0 else f"by signal {-status}"
    return fault(f"the program failed, not the script: it ended {how}. See the terminal of psci try")
