from changed import show


def change(records):
    for it in records[23:]:
        if it['cb'] == 'sync_region':
            it['kind'] = 'barrier_implementation'
    return records


show(change)
