"""The forms of the program's answers, command by command and status by status, by docs/FORMATS.md."""

import re

KEYS = rb"view|name|columns|over|join|where|keep|group|count|sum"
SHAPE = rb"duplicate|unknown|forward|repeated|toomany|empty"
LINE = rb"[^\n]*\n"
FAULT = (
    rb"fault (?:(?:toml|header|read|toolong)|key (?:" + KEYS + rb")|(?:csv|number|strategy|plan|schedule) [1-9]\d*"
    rb"|(?:column|kind|part) [^\n]*|sizes [\s\S]*|shape (?:" + SHAPE + rb") [\s\S]*)\n"
)
STEPS = rb"(?:(?:comp " + LINE[:-2] + rb" from " + LINE[:-2] + rb"|inst " + LINE[:-2] + rb")\n)*"
BROKEN = rb"broken S[1-6] at [1-9]\d*\n"
REFUSAL = rb"No(?:Session|View|Desk|Worker|Night|Job)|SessionOpen|Limit|NightOpen|NotReady|Busy|Idle|Large|Range|Absent"
REPLY = (
    rb"(?:begun|done|closed|(?:job|version|session) \d+|paged [1-9]\d*|page(?: \[[1-9]\d*(?: -?\d+)+\])* (?:end|more)"
    rb"|expired \d+ current \d+ (?:active|idle)|refused (?:" + REFUSAL + rb"))\n"
)
ANSWERS = {
    (0, "check"): rb"correct\nwork \d+\n",
    (1, "check"): BROKEN,
    (0, "plan"): rb"scope (?:all\nwork \d+\n" + STEPS + rb"(?:pair " + LINE + rb")*|one-way\nwork \d+\n" + STEPS
    + rb"(?:bound\n|cycle " + LINE + rb"|branch " + LINE + rb")+)",
    (4, "plan"): rb"budget opened [1-9]\d* best \d+\n",
    (0, "certify"): rb"certified (?:all|one-way) work \d+\n",
    (1, "certify"): BROKEN + rb"|rejected work\n|rejected at \d+\n",
    (0, "night"): STEPS + rb"work \d+\nversion 1\n(?:view " + LINE + rb"#[\s\S]*)?",
    (1, "night"): BROKEN + rb"|refused (?:large|range) \w+\n(?:left (?:untouched|given-up)\n)?|refused absent \w+\nleft untouched\n",
    (0, "replay"): rb"(?:" + REPLY + rb")*",
    (1, "replay"): BROKEN + rb"|refused (?:large|range) \w+\n",
}


def is_an_answer(command, text, status, errors):
    """Whether this text, with this status and with nothing on standard error, is an answer of the command. Of words nothing is said,
    nor of want of memory."""
    form = ANSWERS.get((status, command)) if status != 3 else FAULT
    return form is not None and re.fullmatch(form, text) is not None and not errors
