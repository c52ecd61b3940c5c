"""The results of many files in the form of JUnit: XML as test runners write it, and as servers that run tests show it."""
import os
from xml.etree import ElementTree

from judging import shown

FAILURES = ('yes of a part', 'no', 'malformed')
ERRORS = ('unreadable', 'out of memory', 'without an answer')


def case_of(result):
    """Returns the element of one file."""
    folder, name = os.path.split(result.file)
    case = ElementTree.Element('testcase', classname=shown(folder) or '.', name=shown(name) or shown(result.file),
                               time=f'{result.seconds:.3f}')
    line = result.as_line().removeprefix(f'{shown(result.file)}: ')
    if result.outcome in FAILURES:
        ElementTree.SubElement(case, 'failure', type=result.outcome, message=line).text = line
    elif result.outcome in ERRORS:
        ElementTree.SubElement(case, 'error', type=result.outcome, message=line).text = line
    elif result.outcome != 'yes':
        ElementTree.SubElement(case, 'skipped', message=line)
    else:
        ElementTree.SubElement(case, 'system-out').text = line
    return case


def write(path, results, seconds):
    """Writes the results to a file."""
    outcomes = [it.outcome for it in results]
    counts = {'tests': len(results), 'failures': sum(it in FAILURES for it in outcomes),
              'errors': sum(it in ERRORS for it in outcomes), 'skipped': outcomes.count('not audited')}
    about = {'name': 'taskaudit', **{name: str(it) for name, it in counts.items()}, 'time': f'{seconds:.3f}'}
    suites = ElementTree.Element('testsuites', about)
    ElementTree.SubElement(suites, 'testsuite', about).extend(map(case_of, results))
    ElementTree.indent(suites)
    with open(path, 'wb') as it:
        ElementTree.ElementTree(suites).write(it, encoding='utf-8', xml_declaration=True)
