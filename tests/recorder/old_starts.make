from changed import show

show(lambda records: records, '--old-starts')
