from changed import show


def change(records):
    records[9]['kind'] = 'taskwait'
    return records


show(change)
