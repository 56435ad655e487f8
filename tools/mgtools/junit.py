"""Outcomes of replay tests as JUnit XML, which CI servers read."""
from __future__ import annotations

import os
import re
import xml.etree.ElementTree as tree

from .replays import Outcome

# What no XML text may hold.
NOT_XML = re.compile("[^\t\n\r\x20-\ud7ff\ue000-\ufffd\U00010000-\U0010ffff]")


def clean(text: str) -> str:
    return NOT_XML.sub("?", text)


def junit(outcomes: list[Outcome]) -> bytes:
    """A suite of all recordings, each a case of its folder. A difference is a failure, and a run that went wrong an error."""
    suite = tree.Element("testsuite", {
        "name": "replay-test", "tests": str(len(outcomes)), "failures": str(sum(one.verdict == "FAIL" and not one.is_error for one in outcomes)),
        "errors": str(sum(one.verdict == "FAIL" and one.is_error for one in outcomes)), "skipped": "0",
        "time": f"{sum(one.seconds for one in outcomes):.3f}"})
    for one in outcomes:
        folder, name = os.path.split(one.case.name)
        case = tree.SubElement(suite, "testcase", {"classname": clean(folder or "."), "name": clean(name), "file": clean(str(one.case.recording)),
                                                   "time": f"{one.seconds:.3f}"})
        if one.verdict == "FAIL":
            fault = tree.SubElement(case, "error" if one.is_error else "failure", {"message": clean(one.said[0])})
            fault.text = clean("\n".join(one.said))
        if one.notes:
            tree.SubElement(case, "system-err").text = clean(one.notes)
    suites = tree.Element("testsuites", {key: suite.attrib[key] for key in ("tests", "failures", "errors", "time")})
    suites.append(suite)
    tree.indent(suites)
    return tree.tostring(suites, encoding="utf-8", xml_declaration=True) + b"\n"
