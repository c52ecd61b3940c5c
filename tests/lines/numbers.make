"""Prints records with long numbers: in a member that is not known, as an id, as a number of 32 bits and as a location."""
RECORD = ('{"actual":1,"cb":"implicit_task","endpoint":"begin","flags":["initial"],"index":0,"parallel":0,"seen":0,'
          '"seq":%s,"task":%s,"thread":0%s}')
LIST = '{"cb":"dependences","list":[{"type":"in","var":%s}],"seen":0,"seq":0,"task":2,"thread":0}'
ZEROS = '0' * 60_000

for value in ('0e99999999999999999999', '-0', '1e308', '1e309', '-1e309', '1.7976931348623157e308', '1.7976931348623159e308',
              '1' + '0' * 308, '2' + '0' * 308, '-2' + '0' * 308, '1' + ZEROS, '1' + ZEROS + 'e-60000', '0.' + ZEROS + '1e60001'):
    print(RECORD % (0, 1, ',"more":' + value))
for value in ('1' + '0' * 308, '1' + '0' * 309, '0' * 2, '1' + ZEROS + 'e-60000'):
    print(RECORD % (0, value, ''))
for value in ('18446744073709551615', '18446744073709551616', '1' + '0' * 308, '1' + '0' * 309):
    print(RECORD % (value, 1, ''))
for value in ('18446744073709551615', '18446744073709551616', '1' + '0' * 308, '1' + '0' * 309):
    print(LIST % value)
