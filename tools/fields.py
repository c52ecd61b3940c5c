"""Which member of a line docs/trace.schema.json refuses, and why. It knows the keywords that this schema has."""
import json
import os

SCHEMA = os.path.join(os.path.dirname(os.path.dirname(os.path.abspath(__file__))), 'docs/trace.schema.json')
KINDS = {'object': dict, 'array': list, 'string': str, 'boolean': bool, 'integer': int, 'null': type(None)}


def schema():
    with open(SCHEMA, encoding='utf-8') as it:
        return json.load(it)


def value_of(text):
    """The value of a line; a number that is not written only in digits is no int."""
    return json.loads(text, parse_int=lambda digits: float(digits) if digits.startswith('-') else int(digits))


class Checker:
    """What is wrong with values, by one schema."""

    def __init__(self, whole):
        self.whole = whole

    def resolved(self, part):
        """The part, with what it refers to."""
        if '$ref' not in part:
            return part
        found = self.whole
        for name in part['$ref'].removeprefix('#/').split('/'):
            found = found[name]
        return {**found, **part}

    def faults(self, part, value, where):
        """Yields a sentence for each fault of the value, which is at `where`."""
        part = self.resolved(part)
        kind = part.get('type')
        if kind and (type(value) is not KINDS[kind]):
            yield f'{where} is {json.dumps(value)}, and must be {self.described(part)}'
            return
        if ('const' in part and value != part['const'] or 'enum' in part and value not in part['enum']
                or 'anyOf' in part and not any(self.accepts(it, value) for it in part['anyOf'])):
            yield f'{where} is {json.dumps(value)}, and must be {self.described(part)}'
        if isinstance(value, int) and not part.get('minimum', value) <= value <= part.get('maximum', value):
            yield f'{where} is {value}, and must be {self.described(part)}'
        if isinstance(value, list):
            yield from self.faults_of_list(part, value, where)
        if isinstance(value, dict):
            yield from self.faults_of_object(part, value, where)

    def described(self, part):
        if 'anyOf' in part:
            return ', or '.join(self.described(self.resolved(it)) for it in part['anyOf'])
        if 'const' in part or 'enum' in part:
            values = part.get('enum', [part.get('const')])
            few = ' or '.join(json.dumps(it) for it in values)
            return few if len(values) < 4 else f"one of {', '.join(values)}"
        if 'maximum' in part:
            return f"a whole number from {part['minimum']} to {part['maximum']}, in digits"
        words = {'array': 'a list', 'object': 'an object', 'boolean': 'true or false', 'null': 'null or absent'}
        return words[part['type']]

    def faults_of_list(self, part, value, where):
        if len(value) > part.get('maxItems', len(value)):
            yield f"{where} has {len(value)} items, and may have {part['maxItems']}"
        for at, it in enumerate(value):
            yield from self.faults(part.get('items', {}), it, f'{where}[{at}]')
        if 'contains' in part and not any(self.accepts(part['contains'], it) for it in value):
            yield f"{where} has no {self.described(part['contains'])}"

    def faults_of_object(self, part, value, where):
        for other in part.get('allOf', []):
            yield from self.faults(other, value, where)
        for name in part.get('required', []):
            if name not in value:
                yield f'`{name}` is missing'
        for name, other in part.get('properties', {}).items():
            if name in value:
                yield from self.faults(other, value[name], f'`{name}`')
        if 'if' in part and self.accepts(part['if'], value):
            yield from self.faults(part['then'], value, where)

    def accepts(self, part, value):
        return not any(self.faults(part, value, ''))


def faults_of(text, version=1):
    """What is wrong with a line of a record in a file of this version, in sentences."""
    whole = schema()
    value = value_of(text)
    if not isinstance(value, dict):
        return ['the line is not an object']
    record = whole['$defs']['with_turns' if version >= 2 else 'record']
    return [*dict.fromkeys(Checker(whole).faults(record, value, 'the line'))]
