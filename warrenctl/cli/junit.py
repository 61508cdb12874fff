"""A report in the form of JUnit, which a pipeline shows: one test for each guarantee, one for each cause of a file that is refused."""

import os
import re
import xml.etree.ElementTree as tree
from collections import namedtuple

from warrenctl.fault import Fault

# what a test ends in; a guarantee that is not shown fails as one that is broken does
PASSED, FAILURE, ERROR = None, "failure", "error"

# of: the file that the test is about; name: what is looked at; how: PASSED, FAILURE or ERROR; kind: of which sort; said: why
Case = namedtuple("Case", "of name how kind said", defaults=(PASSED, "", ""))

# what XML 1.0 cannot hold
NO_XML = re.compile("[^\t\n\r -\ud7ff\ue000-\ufffd\U00010000-\U0010ffff]")


def plain(text):
    return NO_XML.sub("?", text)


def class_of(name):
    """A file's name without folder and ending: pipelines know a test again by its class and its name."""
    return plain(os.path.splitext(os.path.basename(name))[0])


def report(name, cases):
    """The bytes of a report of one suite."""
    counts = {"tests": len(cases), "failures": sum(it.how == FAILURE for it in cases), "errors": sum(it.how == ERROR for it in cases), "skipped": 0}
    counts = {of: str(count) for of, count in counts.items()}
    suites = tree.Element("testsuites", counts)
    suite = tree.SubElement(suites, "testsuite", {"name": class_of(name), **counts})
    for it in cases:
        case = tree.SubElement(suite, "testcase", {"classname": class_of(it.of), "name": plain(it.name)})
        if it.how is not PASSED:
            told = tree.SubElement(case, it.how, {"type": it.kind, "message": plain(it.said)})
            told.text = plain(f"{it.name}: {it.said}")
    tree.indent(suites)
    return tree.tostring(suites, encoding="utf-8", xml_declaration=True) + b"\n"


def cases_in(name):
    """The cases of a report that was written before."""
    try:
        found = tree.parse(name).iter("testcase")
        return [_case_of(it) for it in found]
    except (tree.ParseError, KeyError):
        raise Fault(f"{name} is no report") from None


def _case_of(element):
    told = next((it for it in element if it.tag in (FAILURE, ERROR)), None)
    wrong = () if told is None else (told.tag, told.attrib["type"], told.attrib["message"])
    return Case(element.attrib["classname"], element.attrib["name"], *wrong)
